-- Which rows of a subquery an answer row comes from.
CREATE TABLE bids (item INTEGER, bidder TEXT, price INTEGER);
INSERT INTO bids VALUES (1, 'ann', 5), (1, 'bea', 7), (1, 'cid', 7), (2, 'ann', 3);
CREATE TABLE banned (bidder TEXT);
INSERT INTO banned VALUES ('cid'), ('dan');

-- the bids that nobody went above, with all bids that they were held against
SELECT PROVENANCE item, bidder FROM bids WHERE price >= ALL (SELECT o.price FROM bids o WHERE o.item = bids.item);
-- IN holds by the rows that are equal, NOT IN by all
SELECT PROVENANCE item FROM bids WHERE bidder IN (SELECT bidder FROM banned);
SELECT PROVENANCE item FROM bids WHERE item = 2 AND bidder NOT IN (SELECT bidder FROM banned);
-- a scalar subquery and EXISTS count by all of their rows; an EXISTS over no row leaves its place empty
SELECT PROVENANCE item, (SELECT MAX(o.price) FROM bids o WHERE o.item = bids.item) - price AS short FROM bids WHERE bidder = 'ann';
SELECT PROVENANCE item, bidder FROM bids WHERE NOT EXISTS (SELECT 1 FROM bids o WHERE o.item = bids.item AND o.price > bids.price);
