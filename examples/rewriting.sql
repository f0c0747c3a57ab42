-- What the auditor's query of report.sql is made of: plain SQL, for whoever has these tables elsewhere.
CREATE TABLE debtors (id INTEGER, name TEXT, town TEXT);
CREATE TABLE invoices (number INTEGER, debtor INTEGER, issued TEXT);
CREATE TABLE lines (invoice INTEGER, article TEXT, pieces INTEGER, price INTEGER);
CREATE VIEW dues AS
    SELECT invoices.debtor AS debtor, SUM(lines.pieces * lines.price) AS due
    FROM invoices JOIN lines ON invoices.number = lines.invoice
    GROUP BY invoices.debtor
    HAVING COUNT(*) > 1;

EXPLAIN REWRITE SELECT PROVENANCE d.name, t.due
FROM debtors d JOIN dues t ON d.id = t.debtor
WHERE EXISTS (SELECT 1 FROM invoices i WHERE i.debtor = d.id AND i.issued LIKE '2024-02%')
ORDER BY due DESC;
