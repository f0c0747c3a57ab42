-- Questions of the benchmark TPC-H, as far as the language has what they ask: money is in cents and a discount in hundredths, dates are
-- texts, a year or a month later is written out, and an average is a sum over a count. A comment in front of a query names it.

-- Q1
SELECT l_returnflag, l_linestatus, SUM(l_quantity) AS quantity, SUM(l_extendedprice * (100 - l_discount)) AS discounted, COUNT(*) AS lines
FROM lineitem
WHERE l_shipdate <= '1998-09-02'
GROUP BY l_returnflag, l_linestatus;

-- Q2
SELECT s_acctbal, s_name, n_name, p_partkey
FROM part JOIN partsupp ON p_partkey = ps_partkey JOIN supplier ON s_suppkey = ps_suppkey
    JOIN nation ON s_nationkey = n_nationkey JOIN region ON n_regionkey = r_regionkey
WHERE p_size = 15 AND r_name = 'EUROPE' AND ps_supplycost = (
    SELECT MIN(other.ps_supplycost)
    FROM partsupp other JOIN supplier seller ON seller.s_suppkey = other.ps_suppkey
        JOIN nation home ON seller.s_nationkey = home.n_nationkey JOIN region part_of ON home.n_regionkey = part_of.r_regionkey
    WHERE other.ps_partkey = part.p_partkey AND part_of.r_name = 'EUROPE');

-- Q3
SELECT l_orderkey, SUM(l_extendedprice * (100 - l_discount)) AS revenue, o_orderdate
FROM customer JOIN orders ON c_custkey = o_custkey JOIN lineitem ON l_orderkey = o_orderkey
WHERE c_mktsegment = 'BUILDING' AND o_orderdate < '1995-03-15' AND l_shipdate > '1995-03-15'
GROUP BY l_orderkey, o_orderdate;

-- Q4
SELECT o_orderpriority, COUNT(*) AS orders
FROM orders
WHERE o_orderdate >= '1993-07-01' AND o_orderdate < '1993-10-01'
    AND EXISTS (SELECT 1 FROM lineitem WHERE l_orderkey = o_orderkey AND l_commitdate < l_receiptdate)
GROUP BY o_orderpriority;

-- Q5
SELECT n_name, SUM(l_extendedprice * (100 - l_discount)) AS revenue
FROM customer JOIN orders ON c_custkey = o_custkey JOIN lineitem ON l_orderkey = o_orderkey
    JOIN supplier ON l_suppkey = s_suppkey AND c_nationkey = s_nationkey
    JOIN nation ON s_nationkey = n_nationkey JOIN region ON n_regionkey = r_regionkey
WHERE r_name = 'ASIA' AND o_orderdate >= '1994-01-01' AND o_orderdate < '1995-01-01'
GROUP BY n_name;

-- Q6
SELECT SUM(l_extendedprice * l_discount) AS revenue
FROM lineitem
WHERE l_shipdate >= '1994-01-01' AND l_shipdate < '1995-01-01' AND l_discount BETWEEN 5 AND 7 AND l_quantity < 24;

-- Q10
SELECT c_custkey, c_name, SUM(l_extendedprice * (100 - l_discount)) AS revenue
FROM customer JOIN orders ON c_custkey = o_custkey JOIN lineitem ON l_orderkey = o_orderkey
WHERE o_orderdate >= '1993-10-01' AND o_orderdate < '1994-01-01' AND l_returnflag = 'R'
GROUP BY c_custkey, c_name;

-- Q11
SELECT ps_partkey, SUM(ps_supplycost * ps_availqty) AS worth
FROM partsupp JOIN supplier ON ps_suppkey = s_suppkey JOIN nation ON s_nationkey = n_nationkey
WHERE n_name = 'GERMANY'
GROUP BY ps_partkey
HAVING SUM(ps_supplycost * ps_availqty) > (
    SELECT SUM(other.ps_supplycost * other.ps_availqty) / 100
    FROM partsupp other JOIN supplier seller ON other.ps_suppkey = seller.s_suppkey JOIN nation home ON seller.s_nationkey = home.n_nationkey
    WHERE home.n_name = 'GERMANY');

-- Q12
SELECT l_shipmode, SUM(CASE WHEN o_orderpriority IN ('1-URGENT', '2-HIGH') THEN 1 ELSE 0 END) AS high,
    SUM(CASE WHEN o_orderpriority IN ('1-URGENT', '2-HIGH') THEN 0 ELSE 1 END) AS low
FROM orders JOIN lineitem ON o_orderkey = l_orderkey
WHERE l_shipmode IN ('MAIL', 'SHIP') AND l_commitdate < l_receiptdate AND l_shipdate < l_commitdate
    AND l_receiptdate >= '1994-01-01' AND l_receiptdate < '1995-01-01'
GROUP BY l_shipmode;

-- Q13
SELECT counted.orders, COUNT(*) AS customers
FROM (SELECT c_custkey, COUNT(o_orderkey) AS orders
    FROM customer LEFT JOIN orders ON c_custkey = o_custkey AND o_orderpriority NOT LIKE '%URGENT%'
    GROUP BY c_custkey) counted
GROUP BY counted.orders;

-- Q15
SELECT s_suppkey, s_name, sold.total
FROM supplier JOIN (SELECT l_suppkey AS seller, SUM(l_extendedprice) AS total FROM lineitem
    WHERE l_shipdate >= '1996-01-01' AND l_shipdate < '1996-04-01' GROUP BY l_suppkey) sold ON s_suppkey = sold.seller
WHERE sold.total = (SELECT MAX(best.total) FROM (SELECT l_suppkey AS seller, SUM(l_extendedprice) AS total FROM lineitem
    WHERE l_shipdate >= '1996-01-01' AND l_shipdate < '1996-04-01' GROUP BY l_suppkey) best);

-- Q16
SELECT p_brand, p_type, p_size, COUNT(DISTINCT ps_suppkey) AS sellers
FROM partsupp JOIN part ON p_partkey = ps_partkey
WHERE p_brand <> 'Brand#45' AND p_size IN (49, 14, 23, 45, 19, 3, 36, 9)
    AND ps_suppkey NOT IN (SELECT s_suppkey FROM supplier WHERE s_acctbal < 0)
GROUP BY p_brand, p_type, p_size;

-- Q17
SELECT SUM(l_extendedprice) / 7 AS yearly
FROM lineitem JOIN part ON p_partkey = l_partkey
WHERE p_brand = 'Brand#23' AND l_quantity * 5 < (
    SELECT SUM(other.l_quantity) / COUNT(other.l_quantity) FROM lineitem other WHERE other.l_partkey = part.p_partkey);

-- Q18
SELECT c_name, o_orderkey, o_totalprice, SUM(l_quantity) AS quantity
FROM customer JOIN orders ON c_custkey = o_custkey JOIN lineitem ON o_orderkey = l_orderkey
WHERE o_orderkey IN (SELECT large.l_orderkey FROM lineitem large GROUP BY large.l_orderkey HAVING SUM(large.l_quantity) > 250)
GROUP BY c_name, o_orderkey, o_totalprice;

-- Q20
SELECT s_name
FROM supplier JOIN nation ON s_nationkey = n_nationkey
WHERE n_name = 'CANADA' AND s_suppkey IN (
    SELECT ps_suppkey FROM partsupp
    WHERE ps_partkey IN (SELECT p_partkey FROM part WHERE p_name LIKE 'forest%')
        AND ps_availqty * 2 > (SELECT SUM(l_quantity) FROM lineitem WHERE l_partkey = ps_partkey AND l_suppkey = ps_suppkey));

-- Q21
SELECT s_name, COUNT(*) AS waits
FROM supplier JOIN lineitem late ON s_suppkey = late.l_suppkey JOIN orders ON o_orderkey = late.l_orderkey
    JOIN nation ON s_nationkey = n_nationkey
WHERE o_orderstatus = 'F' AND late.l_receiptdate > late.l_commitdate AND n_name = 'SAUDI ARABIA'
    AND EXISTS (SELECT 1 FROM lineitem other WHERE other.l_orderkey = late.l_orderkey AND other.l_suppkey <> late.l_suppkey)
    AND NOT EXISTS (SELECT 1 FROM lineitem third WHERE third.l_orderkey = late.l_orderkey AND third.l_suppkey <> late.l_suppkey
        AND third.l_receiptdate > third.l_commitdate)
GROUP BY s_name;

-- Q22
SELECT c_phone, COUNT(*) AS customers, SUM(c_acctbal) AS total
FROM customer
WHERE c_phone IN ('13', '31', '23', '29', '30', '18', '17')
    AND c_acctbal > (SELECT SUM(rich.c_acctbal) / COUNT(*) FROM customer rich WHERE rich.c_acctbal > 0 AND rich.c_phone IN ('13', '31', '23', '29', '30', '18', '17'))
    AND NOT EXISTS (SELECT 1 FROM orders WHERE o_custkey = c_custkey)
GROUP BY c_phone;
