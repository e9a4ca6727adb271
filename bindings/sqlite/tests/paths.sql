CREATE TABLE t(doc BLOB);
INSERT INTO t VALUES (jb('{"a":{"b":[10,20,{"c":"z"}]},"a b":[1,2,3],"é":4,"x.y":5,"":6}'));

SELECT jb_value(doc, '$.a.b[0]'), jb_value(doc, '$.a.b[2].c'), jb_value(doc, '$."a b"[2]') FROM t;
--> 10|z|3
SELECT jb_value(doc, '$."a b"[#-1]'), jb_value(doc, '$."a b"[#-3]') FROM t;
--> 3|1
SELECT jb_value(doc, '$.a b[0]'), jb_value(doc, '$.é'), jb_value(doc, '$."x.y"') FROM t;
--> 1|4|5
SELECT jb_value(doc, '$.""'), jb_text(jb_at(doc, '$.a.b[2]')), quote(jb_at(doc, '$.é')) FROM t;
--> 6|{"c":"z"}|X'20000000200000025004'
SELECT jb_at(doc, '$') = doc FROM t;
--> 1

-- Nothing is there.
SELECT jb_at(doc, '$.b'), jb_at(doc, '$.a.b.c'), jb_at(doc, '$[0]'), jb_at(doc, '$.a.b[3]') FROM t;
--> NULL|NULL|NULL|NULL
SELECT jb_at(doc, '$.a.b[#]'), jb_at(doc, '$.a.b[#-4]'), jb_at(doc, '$.é.a'), jb_at(doc, '$.é[0]')
FROM t;
--> NULL|NULL|NULL|NULL
SELECT jb_at(doc, '$.a.b[18446744073709551616]'), jb_at(doc, '$.a.b[#-18446744073709551615]')
FROM t;
--> NULL|NULL
SELECT jb_at(jb('7'), '$.a'), jb_at(jb('7'), '$[0]'), jb_value(NULL, '$'), jb_at(jb('7'), NULL);
--> NULL|NULL|NULL|NULL
-- The parts of an object are its keys and values, and none is an item.
SELECT jb_at(jb('{"a":1}'), '$[0]'), jb_at(jb('{"a":1}'), '$[1]'), jb_at(jb('{"a":1}'), '$[#-1]');
--> NULL|NULL|NULL
SELECT jb_value(jb('{"a\u0000b":1}'), '$.a' || char(0) || 'b');
--> 1

-- The same as SQLite's own ->>.
SELECT count(*) FROM t, (SELECT value path FROM json_each('["$.a.b[1]","$.a.b[#-1].c","$.é",
    "$.a b[1]","$.\"a b\"[#-2]","$.a.b[9]","$.none","$.a.b","$.a"]')) paths
WHERE jb_value(doc, path) IS (jb_text(doc) ->> path);
--> 9

-- A bad path is an error at its first wrong character, also where nothing is there.
SELECT jb_at(doc, '') FROM t;
--! jb_at: the text is not a path: ''
SELECT jb_at(doc, 'a.b') FROM t;
--! jb_at: the text is not a path: 'a.b': did you mean '$.a.b'?
SELECT jb_value(doc, 'é') FROM t;
--! jb_value: the text is not a path: 'é': did you mean '$.é'?
SELECT jb_value(doc, '[0].x') FROM t;
--! jb_value: the text is not a path: '[0].x': did you mean '$[0].x'?
SELECT jb_value(doc, '.a') FROM t;
--! jb_value: the text is not a path: '.a': did you mean '$.a'?
-- Nothing is meant where a path would not be one either, or the text is another language's.
SELECT jb_value(doc, 'a..b') FROM t;
--! jb_value: the text is not a path: 'a..b'
SELECT jb_value(doc, 'a[x]') FROM t;
--! jb_value: the text is not a path: 'a[x]'
SELECT jb_value(doc, '/a/b') FROM t;
--! jb_value: the text is not a path: '/a/b'
SELECT jb_value(doc, 'lax $.a') FROM t;
--! jb_value: the text is not a path: 'lax $.a'
SELECT jb_value(doc, '$a') FROM t;
--! jb_value: the text is not a path: '$a'
SELECT jb_at(doc, '$.') FROM t;
--! jb_at: the text is not a path: '$.'
SELECT jb_at(doc, '$.é..a') FROM t;
--! jb_at: the text is not a path: '$.é..a'
SELECT jb_at(doc, '$."a') FROM t;
--! jb_at: the text is not a path: '$."a'
SELECT jb_at(doc, '$."a"b') FROM t;
--! jb_at: the text is not a path: '$."a"b'
SELECT jb_at(doc, '$.a[x]') FROM t;
--! jb_at: the text is not a path: '$.a[x]'
SELECT jb_at(doc, '$.a[]') FROM t;
--! jb_at: the text is not a path: '$.a[]'
SELECT jb_at(doc, '$.a[1') FROM t;
--! jb_at: the text is not a path: '$.a[1'
SELECT jb_at(doc, '$.a[-1]') FROM t;
--! jb_at: the text is not a path: '$.a[-1]'
SELECT jb_at(doc, '$.a[#-]') FROM t;
--! jb_at: the text is not a path: '$.a[#-]'
SELECT jb_at(doc, '$.a[#1]') FROM t;
--! jb_at: the text is not a path: '$.a[#1]'
SELECT jb_at(doc, '$.none.none[') FROM t;
--! jb_at: the text is not a path: '$.none.none['
