-- Invoice 10 may have to be struck out. What would a debtor then no longer owe for?
-- (Run at the top of the repository, since COPY looks for its files from the folder in which the program starts.)
CREATE TABLE debtors (id INTEGER, name TEXT, town TEXT);
CREATE TABLE invoices (number INTEGER, debtor INTEGER, issued TEXT);
CREATE TABLE lines (invoice INTEGER, article TEXT, pieces INTEGER, price INTEGER);
COPY debtors FROM 'examples/report/debtors.csv';
COPY invoices FROM 'examples/report/invoices.csv';
COPY lines FROM 'examples/report/lines.csv';

-- What each debtor owes for.
CREATE VIEW debts AS
    SELECT DISTINCT d.name, l.article
    FROM debtors d JOIN invoices i ON d.id = i.debtor JOIN lines l ON i.number = l.invoice;
SELECT * FROM debts;

-- The ink; pens stand on invoice 11 too.
IMPACT DELETE FROM invoices WHERE number = 10 OF
SELECT * FROM debts;

-- Nothing was deleted.
SELECT COUNT(*) FROM invoices;
