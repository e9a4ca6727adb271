-- TEXT that is JSON is marked as such, by SQLite's JSON functions and by those here.
CREATE TABLE t(doc BLOB);
INSERT INTO t VALUES (jb('{"a":1}'));
SELECT json_group_array(jb_text(doc)), json_array(jb_text(doc)) FROM t;
--> [{"a":1}]|[{"a":1}]
SELECT json_group_object('k', jb_text(doc)), json_object('k', jb_text(doc)) FROM t;
--> {"k":{"a":1}}|{"k":{"a":1}}
SELECT json_extract(jb_text(doc), '$.a'), jb_text(doc) ->> '$.a' FROM t;
--> 1|1
SELECT json_array(jb_text(jb('"x"')), jb_text(jb('1.50')), jb_text(jb('null')));
--> ["x",1.50,null]
SELECT json_array(jb_pretty(jb('[1]')), jb_pretty(jb('"x"')));
--> [[
-->   1
--> ],"x"]

-- Arrays and objects as SQL values, as json_extract and json_each; other values are not marked.
SELECT json_array(jb_value(doc, '$.a'), jb_value(doc, '$.o'), jb_value(doc, '$.s')),
    json_array(json_extract(jb_text(doc), '$.a'), json_extract(jb_text(doc), '$.o'),
        json_extract(jb_text(doc), '$.s'))
FROM (SELECT jb('{"a":[1,"x"],"o":{"k":[]},"s":"[1]"}') doc);
--> [[1,"x"],{"k":[]},"[1]"]|[[1,"x"],{"k":[]},"[1]"]
SELECT json_group_array(value) FROM jb_each(jb('[[1],{"a":2},"x",3,null,"[4]"]'));
--> [[1],{"a":2},"x",3,null,"[4]"]
SELECT json_group_array(value) FROM json_each('[[1],{"a":2},"x",3,null,"[4]"]');
--> [[1],{"a":2},"x",3,null,"[4]"]
SELECT json_array(jb_value(jb('1.50'), '$'), jb_value(x'200000006000000300ABCD', '$'));
--> ["1.50","abcd"]

-- jb_of and the aggregates take marked TEXT as JSON, other TEXT as a string.
SELECT jb_text(jb_of(json('{"a":1}'))), jb_text(jb_of('{"a":1}'));
--> {"a":1}|"{\"a\":1}"
SELECT jb_of(json('{"a":[1.50]}')) = jb('{"a":[1.50]}'), jb_of(jb_text(doc)) = doc FROM t;
--> 1|1
SELECT jb_text(jb_of('{"a":[1,{"b":2}]}' -> '$.a')), jb_text(jb_of('{"a":[1]}' ->> '$.a'));
--> [1,{"b":2}]|"[1]"
SELECT jb_text(jb_of(json('"x"'))), jb_text(jb_of(json_quote('x'))), jb_text(jb_of(json('null')));
--> "x"|"x"|null
SELECT jb_text(jb_of(jb_value(jb('{"a":[1,{"b":2.50}]}'), '$.a')));
--> [1,{"b":2.50}]
SELECT jb_text(jb_group_array(json(column1))), jb_text(jb_group_array(column1))
FROM (VALUES ('[1]'), ('{"b":2,"a":1.50}'), ('"x"'));
--> [[1],{"a":1.50,"b":2},"x"]|["[1]","{\"b\":2,\"a\":1.50}","\"x\""]
SELECT jb_text(jb_group_object('k', json('{"a":1}'))), jb_text(jb_group_object('k', '{"a":1}'));
--> {"k":{"a":1}}|{"k":"{\"a\":1}"}
SELECT jb_text(jb_group_array(jb_text(doc))), jb_text(jb_group_array(doc)) FROM t;
--> [{"a":1}]|[{"a":1}]
SELECT jb_text(jb_group_array(value)) FROM jb_each(jb('[[1],"x",2,null,{"k":2.50}]'));
--> [[1],"x",2,null,{"k":2.50}]
SELECT jb_text(jb_group_object(key, value)) FROM json_each('{"b":[1],"a":"x"}');
--> {"a":"x","b":[1]}
-- A document longer than twice its text: 4 + 3,333 * 6 bytes, and 8 around them.
SELECT length(jb_of(json(text))), length(jb_group_array(json(text)))
FROM (SELECT '[' || replace(hex(zeroblob(1666)), '0', '1,') || '1]' AS text);
--> 20002|20010
-- A name is a name, also if it is marked.
SELECT jb_text(jb_group_object(json('"k"'), 1));
--> {"\"k\"":1}
-- A table keeps no mark.
CREATE TABLE kept AS SELECT jb_text(doc) AS text FROM t;
SELECT json_array(text), jb_text(jb_of(text)) FROM kept;
--> ["{\"a\":1}"]|"{\"a\":1}"

-- What is no document here is refused, not taken as a string.
SELECT jb_of(json('[1e99]'));
--! jb_of: BadNumber: at byte 4 of a number that is unfinished or too long, in '1e99'
SELECT jb_group_array(json('{"a":1e99}'));
--! jb_group_array: BadNumber: at byte 8 of a number that is unfinished or too long, in '1e99'
SELECT jb_group_object('k', json('1e99'));
--! jb_group_object: BadNumber: at byte 3 of a number that is unfinished or too long, in '1e99'
SELECT jb_of(json(replace(hex(zeroblob(501)), '0', '[') || replace(hex(zeroblob(501)), '0', ']')));
--! jb_of: TooDeep

-- A member changed through SQLite's functions.
SELECT jb_text(jb(json_set(jb_text(doc), '$.b', 'x', '$.c', json('1.70')))) FROM t;
--> {"a":1,"b":"x","c":1.70}
