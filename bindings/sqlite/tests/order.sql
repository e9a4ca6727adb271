-- The worked keys of docs/COMPARABLE.md.
SELECT quote(jb_key(jb('{"id":3,"town":"Oslo"}')));
--> X'B06964018206746F776E01A04F736C6F0100'
SELECT quote(jb_key(jb('[true,-12.05,"a\u0000"]')));
--> X'C0217DE6F5A06102010100'
SELECT quote(jb_key(jb('{"at":0.005,"n":[12345,null]}')));
--> X'B0617401817F646E01C084032F5AD00000'

CREATE TABLE t(text TEXT, doc BLOB);
INSERT INTO t SELECT value, jb(value) FROM json_each('["10","9","\"b\"","null","[1]","{}","9.0",
    "-1","true","\"B\"","[]","false","{\"a\":1}","0.5","\"\"","[1,0]","18446744073709551616"]');
-- From the least kind: boolean, number, text, object, array, null; equal documents by their text.
SELECT group_concat(text, ' ') FROM (SELECT text FROM t ORDER BY jb_key(doc), text);
--> false true -1 0.5 9 9.0 10 18446744073709551616 "" "B" "b" {} {"a":1} [] [1] [1,0] null
SELECT jb_key(jb('5')) = jb_key(jb('5.00')), jb_key(jb('5')) < jb_key(jb('5.01'));
--> 1|1
SELECT count(*) FROM t GROUP BY jb_key(doc) HAVING count(*) > 1;
--> 2
-- A BLOB that is no document is above all of them.
SELECT jb_key(x'00') > jb_key(jb('null')), jb_key(x'00') < jb_key(x'01');
--> 1|1

-- The same order between two: of the 17 rows in this order, also of their JSON texts.
CREATE TABLE ranked AS SELECT text, doc, dense_rank() OVER (ORDER BY jb_key(doc)) AS rank FROM t;
SELECT count(*), sum(jb_compare(a.doc, b.doc) = sign(a.rank - b.rank)),
    sum(jb_compare(a.text, b.doc) = sign(a.rank - b.rank)),
    sum(jb_compare(a.text, b.text) = sign(a.rank - b.rank))
FROM ranked a, ranked b;
--> 289|289|289|289
SELECT jb_compare(jb('5'), jb('5.00')), jb_compare(jb('{"b":1,"a":[2]}'), '{"a":[2.0],"b":1}');
--> 0|0
SELECT jb_compare(jb('1.50'), '1.5'), jb_compare(jb('1.50'), '1.49'), jb_compare(jb('1.50'), 2);
--> 0|1|-1
SELECT jb_compare(7, 7), jb_compare(-7, '-7.0'), jb_compare('"10"', '"9"'), jb_compare('"a"', 7);
--> 0|0|-1|1
SELECT jb_compare(NULL, jb('1')), jb_compare('1', NULL), jb_compare(NULL, NULL);
--> NULL|NULL|NULL
SELECT jb_compare(x'00', jb('null')), jb_compare(jb('null'), x'00'), jb_compare(x'00', x'01');
--> 1|-1|-1
-- Texts longer than the first room.
SELECT jb_compare('"' || x || '"', '"' || x || '"'), jb_compare('"' || x || '"', jb_of(x || 'x'))
FROM (SELECT hex(zeroblob(5000)) AS x);
--> 0|-1
SELECT group_concat(text, ' ') FROM (SELECT text FROM t
    WHERE jb_compare(doc, '9') >= 0 AND jb_compare(doc, '"B"') <= 0 ORDER BY jb_key(doc), text);
--> 9 9.0 10 18446744073709551616 "" "B"

CREATE INDEX by_doc ON t(jb_key(doc));
EXPLAIN QUERY PLAN SELECT text FROM t ORDER BY jb_key(doc);
--> QUERY PLAN
--> `--SCAN t USING INDEX by_doc
EXPLAIN QUERY PLAN SELECT text FROM t WHERE jb_key(doc) >= jb_key(jb('9'));
--> QUERY PLAN
--> `--SEARCH t USING INDEX by_doc (<expr>>?)
SELECT group_concat(text, ' ') FROM (SELECT text FROM t
    WHERE jb_key(doc) BETWEEN jb_key(jb('9')) AND jb_key(jb('"B"')) ORDER BY jb_key(doc), text);
--> 9 9.0 10 18446744073709551616 "" "B"
