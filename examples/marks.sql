-- What counts as a source: the tables, a part taken as a whole, or columns that say it themselves.
CREATE TABLE sales (region TEXT, amount INTEGER, receipt TEXT);
INSERT INTO sales VALUES ('north', 10, 'r-1'), ('north', 30, 'r-2'), ('south', 5, 'r-3');
CREATE VIEW regions AS SELECT region, SUM(amount) AS total FROM sales GROUP BY region;

SELECT PROVENANCE total FROM regions WHERE region = 'north';
SELECT PROVENANCE total FROM regions BASERELATION WHERE region = 'north';
SELECT PROVENANCE SUM(amount) AS total FROM sales PROVENANCE (receipt) WHERE region = 'north';

-- A query over an answer with its provenance: the receipts behind totals above 20.
SELECT total, prov_sales_receipt
FROM (SELECT PROVENANCE region, total FROM regions) traced
WHERE total > 20
ORDER BY prov_sales_receipt;
