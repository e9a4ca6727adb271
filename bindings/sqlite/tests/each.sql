SELECT key, value, kind, jb_text(document)
FROM jb_each(jb('{"b":[1],"a":"x","c":12.25,"d":null,"e":true,"f":{}}'));
--> a|x|string|"x"
--> b|[1]|array|[1]
--> c|12.25|number|12.25
--> d|NULL|null|null
--> e|1|boolean|true
--> f|{}|object|{}
SELECT key, typeof(key), value, typeof(value), kind FROM jb_each(jb('[5,"q",false,-1.0]'));
--> 0|integer|5|integer|number
--> 1|integer|q|text|string
--> 2|integer|0|integer|boolean
--> 3|integer|-1.0|text|number
SELECT quote(document) FROM jb_each(jb('[null,7,"é",[]]'));
--> X'2000000000000000'
--> X'20000000200000025007'
--> X'2000000010000002C3A9'
--> X'80000000'

-- A scalar is one row without a key; nothing, none.
SELECT key, value, kind FROM jb_each(jb('"x"'));
--> NULL|x|string
SELECT count(*) FROM jb_each(jb('[]'));
--> 0
SELECT count(*) FROM jb_each(NULL);
--> 0
SELECT count(*) FROM jb_each;
--> 0

-- From a path.
SELECT key, value FROM jb_each(jb('{"a":{"t":["x","y"]}}'), '$.a.t');
--> 0|x
--> 1|y
SELECT key, value, kind FROM jb_each(jb('{"a":[true]}'), '$.a[0]');
--> NULL|1|boolean
SELECT count(*) FROM jb_each(jb('{"a":1}'), '$.b');
--> 0
SELECT count(*) FROM jb_each(jb('{"a":1}'), NULL);
--> 0
SELECT jb_text(source), root FROM jb_each(jb('{"a":[1]}'), '$.a');
--> {"a":[1]}|$.a
SELECT rowid, root FROM jb_each(jb('[4,5]'));
--> 0|NULL
--> 1|NULL

-- Joined with a table, nested, as the right side of a left join, and the same rows as json_each.
CREATE TABLE t(id INTEGER PRIMARY KEY, doc BLOB);
INSERT INTO t VALUES (1, jb('{"tags":["a","b"]}')), (2, jb('{"tags":[]}')), (3, jb('{}')),
    (4, jb('{"tags":["b"]}'));
SELECT t.id, tag.value FROM t, jb_each(t.doc, '$.tags') tag ORDER BY t.id, tag.key;
--> 1|a
--> 1|b
--> 4|b
SELECT t.id, tag.value FROM t LEFT JOIN jb_each(t.doc, '$.tags') tag WHERE t.id > 1;
--> 2|NULL
--> 3|NULL
--> 4|b
SELECT tag.value, count(*) FROM t, jb_each(t.doc, '$.tags') tag GROUP BY 1 ORDER BY 1;
--> a|1
--> b|2
SELECT id FROM t WHERE EXISTS (SELECT 1 FROM jb_each(doc, '$.tags') WHERE value = 'b');
--> 1
--> 4
SELECT item.value FROM jb_each(jb('[[1,2],[3]]')) list, jb_each(list.document) item;
--> 1
--> 2
--> 3
SELECT count(*) FROM jb_each(jb('{"k":1,"é":[2,"x"],"n":null}')) ours
JOIN json_each('{"k":1,"é":[2,"x"],"n":null}') theirs
ON ours.key = theirs.key AND ours.value IS theirs.value;
--> 3

SELECT * FROM jb_each(x'00');
--! jb_each: InvalidEOF
SELECT * FROM jb_each('[]');
--! jb_each: InvalidJsonb: a document is a BLOB
SELECT * FROM jb_each(jb('[]'), 'a');
--! jb_each: the text is not a path: 'a': did you mean '$.a'?
SELECT * FROM jb_each(jb('[]'), 5);
--! jb_each: OtherKind: names and paths are TEXT
-- The second item runs past the end.
SELECT value FROM jb_each(x'800000024000000010000001');
--> 1
--! jb_each: InvalidJsonb
-- A text that is not UTF-8, in bytes that are no document.
SELECT value FROM jb_each(x'8000000110000001FF');
--! jb_each: InvalidJsonb
