-- An auditor asks: a report says that Ada owes 2500. Which rows of the books is this figure made of?
-- (Run at the top of the repository, since COPY looks for its files from the folder in which the program starts.)
CREATE TABLE debtors (id INTEGER, name TEXT, town TEXT);
CREATE TABLE invoices (number INTEGER, debtor INTEGER, issued TEXT);
CREATE TABLE lines (invoice INTEGER, article TEXT, pieces INTEGER, price INTEGER);
COPY debtors FROM 'examples/report/debtors.csv';
COPY invoices FROM 'examples/report/invoices.csv';
COPY lines FROM 'examples/report/lines.csv';

-- What each debtor with more than one line owes.
CREATE VIEW dues AS
    SELECT invoices.debtor AS debtor, SUM(lines.pieces * lines.price) AS due
    FROM invoices JOIN lines ON invoices.number = lines.invoice
    GROUP BY invoices.debtor
    HAVING COUNT(*) > 1;

-- The report: of these the debtors with an invoice of February.
SELECT d.name, t.due
FROM debtors d JOIN dues t ON d.id = t.debtor
WHERE EXISTS (SELECT 1 FROM invoices i WHERE i.debtor = d.id AND i.issued LIKE '2024-02%')
ORDER BY due DESC;

-- The answer to the auditor: each line and invoice that was summed up, and the invoice by which Ada is in the report.
SELECT PROVENANCE d.name, t.due
FROM debtors d JOIN dues t ON d.id = t.debtor
WHERE EXISTS (SELECT 1 FROM invoices i WHERE i.debtor = d.id AND i.issued LIKE '2024-02%')
ORDER BY due DESC;

-- The auditor keeps the figure with its sources, and asks later whether the books are those that it was made of.
CREATE TABLE figure AS
    SELECT PROVENANCE d.name, t.due
    FROM debtors d JOIN dues t ON d.id = t.debtor
    WHERE EXISTS (SELECT 1 FROM invoices i WHERE i.debtor = d.id AND i.issued LIKE '2024-02%');
SHOW FRESH figure;
INSERT INTO lines VALUES (11, 'rubber', 1, 80);
SHOW FRESH figure;
