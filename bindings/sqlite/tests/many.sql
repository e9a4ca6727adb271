-- 100,000 rows, with sums known in advance.
CREATE TABLE t(doc BLOB);
WITH RECURSIVE n(i) AS (VALUES (0) UNION ALL SELECT i + 1 FROM n WHERE i < 99999)
INSERT INTO t SELECT jb(printf('{"id":%d,"price":%d.%02d,"tags":["t%d","x"],"sub":{"at":[%d,%d]}}',
    i, i / 100, i % 100, i % 7, -i, i * i)) FROM n;
SELECT count(*), sum(jb_valid(doc)), sum(jb_value(doc, '$.id')) FROM t;
--> 100000|100000|4999950000
SELECT sum(jb_value(doc, '$.sub.at[0]')), sum(jb_value(jb_get(doc, 'sub'), '$.at[#-1]')) FROM t;
--> -4999950000|333328333350000
SELECT count(DISTINCT jb_key(jb_at(doc, '$.price'))) FROM t;
--> 100000
-- Prices rise with the ids, and so must their keys.
SELECT count(*) FROM (SELECT jb_value(doc, '$.id') id,
    row_number() OVER (ORDER BY jb_key(jb_at(doc, '$.price'))) - 1 place FROM t) WHERE id = place;
--> 100000
SELECT jb_value(doc, '$.tags[0]') tag, count(*) FROM t GROUP BY tag ORDER BY tag LIMIT 2;
--> t0|14286
--> t1|14286
SELECT count(*), count(DISTINCT tag.value) FROM t, jb_each(doc, '$.tags') tag;
--> 200000|8
SELECT sum(jb(jb_text(doc)) = doc), sum(jb_canonical(doc) = doc) FROM t;
--> 100000|100000

-- One array and one object of 100,000: each child once, in one walk.
CREATE TABLE big AS SELECT jb_group_array(jb_get(doc, 'id')) items,
    jb_group_object(printf('k%06d', jb_value(doc, '$.id')), doc) members FROM t;
SELECT jb_length(items), jb_length(members) FROM big;
--> 100000|100000
SELECT count(*), sum(value), sum(key = value) FROM big, jb_each(items);
--> 100000|4999950000|100000
SELECT count(*), sum(jb_value(document, '$.id') = substr(key, 2)+0) FROM big, jb_each(members);
--> 100000|100000
SELECT jb_value(items, '$[99999]'), jb_value(members, '$.k077777.price') FROM big;
--> 99999|777.77

CREATE INDEX by_id ON t(jb_value(doc, '$.id'));
EXPLAIN QUERY PLAN SELECT jb_text(doc) FROM t WHERE jb_value(doc, '$.id') = 77777;
--> QUERY PLAN
--> `--SEARCH t USING INDEX by_id (<expr>=?)
SELECT jb_text(doc) FROM t WHERE jb_value(doc, '$.id') = 77777;
--> {"id":77777,"price":777.77,"sub":{"at":[-77777,6049261729]},"tags":["t0","x"]}
