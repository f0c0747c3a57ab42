-- What each debtor owes, and which rows of the books Ada's figure is made of.
CREATE VIEW dues AS
    SELECT d.name, SUM(l.pieces * l.price) AS due
    FROM debtors d JOIN invoices i ON i.debtor = d.id JOIN lines l ON l.invoice = i.number
    GROUP BY d.name;
SELECT * FROM dues;
SELECT PROVENANCE due FROM dues WHERE name = 'Ada';
