-- The aggregates over frames, as json_group_array and json_group_object.
CREATE TABLE t(id INTEGER PRIMARY KEY, name TEXT, value);
INSERT INTO t VALUES (1, 'a', 10), (2, 'b', 'x'), (3, 'c', NULL), (4, 'd', 40), (5, 'e', 50);
SELECT id, jb_text(jb_group_array(value) OVER (ORDER BY id)) FROM t;
--> 1|[10]
--> 2|[10,"x"]
--> 3|[10,"x",null]
--> 4|[10,"x",null,40]
--> 5|[10,"x",null,40,50]
SELECT id, jb_text(jb_group_array(value) OVER (ORDER BY id ROWS 1 PRECEDING)),
    jb_text(jb_group_object(name, value)
        OVER (ORDER BY id ROWS BETWEEN 1 PRECEDING AND 1 FOLLOWING))
FROM t;
--> 1|[10]|{"a":10,"b":"x"}
--> 2|[10,"x"]|{"a":10,"b":"x","c":null}
--> 3|["x",null]|{"b":"x","c":null,"d":40}
--> 4|[null,40]|{"c":null,"d":40,"e":50}
--> 5|[40,50]|{"d":40,"e":50}
SELECT jb_text(jb_group_array(value) OVER (ORDER BY id ROWS BETWEEN 2 FOLLOWING AND 3 FOLLOWING))
FROM t;
--> [null,40]
--> [40,50]
--> [50]
--> []
--> []
SELECT jb_text(jb_group_array(id) FILTER (WHERE id <> 3)
    OVER (PARTITION BY id % 2 ORDER BY id DESC))
FROM t;
--> [4]
--> [4,2]
--> [5]
--> [5]
--> [5,1]
SELECT jb_text(jb_group_array(jb_array(id)) OVER (ORDER BY id ROWS BETWEEN UNBOUNDED PRECEDING AND
    CURRENT ROW EXCLUDE CURRENT ROW)) FROM t;
--> []
--> [[1]]
--> [[1],[2]]
--> [[1],[2],[3]]
--> [[1],[2],[3],[4]]
-- Every frame of 300 rows, with rows that leave one by one and many at once, beside SQLite's.
CREATE TABLE many AS WITH RECURSIVE n(i) AS (VALUES (0) UNION ALL SELECT i + 1 FROM n WHERE i < 299)
SELECT i, i * i % 101 AS k,
    CASE i % 4 WHEN 0 THEN i WHEN 1 THEN printf('%.*c', i, 'x') END AS v FROM n;
SELECT count(*), sum(jb_text(ours) = theirs) FROM (SELECT jb_group_array(v) OVER w AS ours,
    json_group_array(v) OVER w AS theirs FROM many WINDOW w AS (ORDER BY i ROWS 7 PRECEDING));
--> 300|300
SELECT count(*), sum(jb_text(ours) = theirs) FROM (SELECT jb_group_array(v) OVER w AS ours,
    json_group_array(v) OVER w AS theirs FROM many
    WINDOW w AS (ORDER BY k RANGE BETWEEN 5 PRECEDING AND 20 FOLLOWING));
--> 300|300
SELECT count(*), sum(ours = jb(theirs)) FROM (SELECT jb_group_object('k' || i, v) OVER w AS ours,
    json_group_object('k' || i, v) OVER w AS theirs FROM many
    WINDOW w AS (ORDER BY i ROWS BETWEEN 50 PRECEDING AND 10 PRECEDING));
--> 300|300
-- 20,000 frames of 100 rows: rows that left take no memory and no time.
WITH RECURSIVE n(i) AS (VALUES (0) UNION ALL SELECT i + 1 FROM n WHERE i < 19999)
SELECT count(*), sum(jb_length(doc)) FROM (
    SELECT jb_group_array(i) OVER (ORDER BY i ROWS 99 PRECEDING) AS doc FROM n);
--> 20000|1995050

SELECT jb_text(jb_group_array(v) OVER (ORDER BY v)) FROM (SELECT 1 AS v UNION ALL SELECT 1.5);
--> [1]
--! jb_group_array: BadNumber: a REAL is refused, pass decimals as TEXT
SELECT jb_text(jb_group_object('a', v) OVER (ORDER BY v ROWS 0 PRECEDING)) FROM
    (SELECT 1 AS v UNION ALL SELECT 2);
--> {"a":1}
--> {"a":2}
SELECT jb_text(jb_group_object('a', v) OVER (ORDER BY v ROWS 1 PRECEDING)) FROM
    (SELECT 1 AS v UNION ALL SELECT 2);
--> {"a":1}
--! jb_group_object: ObjectDuplicateKey
