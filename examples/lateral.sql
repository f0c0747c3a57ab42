-- Each debtor beside his largest invoice, and the rows of the books that its sum is made of.
-- (Run at the top of the repository, since COPY looks for its files from the folder in which the program starts.)
CREATE TABLE debtors (id INTEGER, name TEXT, town TEXT);
CREATE TABLE invoices (number INTEGER, debtor INTEGER, issued TEXT);
CREATE TABLE lines (invoice INTEGER, article TEXT, pieces INTEGER, price INTEGER);
COPY debtors FROM 'examples/report/debtors.csv';
COPY invoices FROM 'examples/report/invoices.csv';
COPY lines FROM 'examples/report/lines.csv';

-- What each invoice comes to.
CREATE VIEW sums AS
    SELECT i.number, i.debtor, SUM(l.pieces * l.price) AS due
    FROM invoices i JOIN lines l ON i.number = l.invoice
    GROUP BY i.number, i.debtor;
SELECT number, debtor, due FROM sums;

-- The query behind LATERAL sees the debtor: it takes the first of his invoices by what they come to. Cy has none.
SELECT d.name, largest.number, largest.due
FROM debtors d LEFT JOIN LATERAL (
    SELECT s.number, s.due FROM sums s WHERE s.debtor = d.id ORDER BY due DESC LIMIT 1
) AS largest ON TRUE;

-- The lines that this sum is made of, with their invoice, and none of the debtor's other invoices.
SELECT PROVENANCE d.name, largest.number, largest.due
FROM debtors d LEFT JOIN LATERAL (
    SELECT s.number, s.due FROM sums s WHERE s.debtor = d.id ORDER BY due DESC LIMIT 1
) AS largest ON TRUE;
