
-- The report of the first quarter: what each account has.
SELECT a.name, SUM(l.amount) AS cents
FROM ledger l JOIN accounts a ON l.account = a.account
WHERE l.date >= '2024-01-01' AND l.date < '2024-04-01'
GROUP BY a.name;

-- Which lines of the ledger is the figure of Sales made of?
SELECT PROVENANCE a.name, SUM(l.amount) AS cents
FROM ledger l JOIN accounts a ON l.account = a.account
WHERE l.date >= '2024-01-01' AND l.date < '2024-04-01' AND a.name = 'Sales'
GROUP BY a.name;

-- Which lines stand in the ledger several times?
SELECT voucher, date, account, party, amount, COUNT(*) AS times
FROM ledger GROUP BY voucher, date, account, party, amount
HAVING COUNT(*) > 1;
