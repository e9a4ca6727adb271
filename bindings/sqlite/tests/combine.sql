-- Containment, keys, two documents put together, merge patches, types.
CREATE TABLE t(doc BLOB);
INSERT INTO t VALUES (jb('{"a":1,"b":[10,{"c":"z","d":null}],"price":1.50}'));

SELECT jb_contains(doc, '{"a":1}'), jb_contains(doc, '{"a":2}'), jb_contains(doc, doc) FROM t;
--> 1|0|1
SELECT jb_contains(doc, '{"price":1.5}'), jb_contains(doc, '{"b":[{"c":"z"}]}') FROM t;
--> 1|1
SELECT jb_contains('[1,2,[3]]', '[[3],1]'), jb_contains('[1,2]', 2), jb_contains('2', '[2]');
--> 1|1|0
SELECT jb_contains('{"a":{}}', '{}'), jb_contains('[]', '{}'), jb_contains(NULL, '1');
--> 1|0|NULL
SELECT jb_exists(doc, 'a'), jb_exists(doc, 'c'), jb_exists(jb('["x",1]'), 'x') FROM t;
--> 1|0|1
SELECT jb_exists(jb('"x"'), 'x'), jb_exists(jb('1'), '1'), jb_exists(NULL, 'x');
--> 1|0|NULL

SELECT jb_exists_any(doc, '["x","b"]'), jb_exists_any(doc, '["x","c"]'), jb_exists_any(doc, '[]')
FROM t;
--> 1|0|0
SELECT jb_exists_all(doc, '["b","a","b"]'), jb_exists_all(doc, jb('["a","c"]')),
    jb_exists_all(doc, '[]') FROM t;
--> 1|0|1
SELECT jb_exists_any(jb('["x",1]'), '["1","x"]'), jb_exists_all(jb('["x",1]'), '["1","x"]'),
    jb_exists_all(jb('"x"'), '["x"]'), jb_exists_any(jb('1'), '["1"]');
--> 1|0|1|0
SELECT jb_exists_any(NULL, '[]'), jb_exists_any(doc, NULL), jb_exists_all(NULL, '[]') FROM t;
--> NULL|NULL|NULL
-- Each key beside jb_exists: 3,000 keys, of which each third is there.
CREATE TABLE keys AS WITH n(i) AS (SELECT 1 UNION ALL SELECT i + 1 FROM n WHERE i < 3000)
SELECT i, 'k' || i AS name FROM n;
CREATE TABLE many AS SELECT jb_group_object(name, i) AS thirds, jb_group_array(name) AS names
FROM keys WHERE i % 3 = 0;
SELECT jb_exists_all(thirds, names), jb_exists_all(names, names),
    jb_exists_all(thirds, jb_concat(names, '["k4"]')), jb_exists_any(thirds, '["k4","k3000"]'),
    (SELECT sum(jb_exists(thirds, name)) FROM keys) FROM many;
--> 1|1|0|1|1000

SELECT jb_text(jb_concat(doc, '{"a":2,"z":[]}')) FROM t;
--> {"a":2,"b":[10,{"c":"z","d":null}],"price":1.50,"z":[]}
SELECT jb_text(jb_concat('[1]', '[2,[3]]')), jb_text(jb_concat('[1]', 2)), jb_text(jb_concat(1, 2));
--> [1,2,[3]]|[1,2]|[1,2]
SELECT jb_text(jb_concat('{"a":1}', '[2]')), jb_concat(doc, NULL) FROM t;
--> [{"a":1},2]|NULL

-- The examples of RFC 7396.
CREATE TABLE rfc(target, patch, result);
INSERT INTO rfc VALUES ('{"a":"b"}', '{"a":"c"}', '{"a":"c"}'),
    ('{"a":"b"}', '{"b":"c"}', '{"a":"b","b":"c"}'), ('{"a":"b"}', '{"a":null}', '{}'),
    ('{"a":"b","b":"c"}', '{"a":null}', '{"b":"c"}'), ('{"a":["b"]}', '{"a":"c"}', '{"a":"c"}'),
    ('{"a":"c"}', '{"a":["b"]}', '{"a":["b"]}'),
    ('{"a":{"b":"c"}}', '{"a":{"b":"d","c":null}}', '{"a":{"b":"d"}}'),
    ('{"a":[{"b":"c"}]}', '{"a":[1]}', '{"a":[1]}'), ('["a","b"]', '["c","d"]', '["c","d"]'),
    ('{"a":"b"}', '["c"]', '["c"]'), ('{"a":"foo"}', 'null', 'null'),
    ('{"a":"foo"}', '"bar"', '"bar"'), ('{"e":null}', '{"a":1}', '{"e":null,"a":1}'),
    ('[1,2]', '{"a":"b","c":null}', '{"a":"b"}'), ('{}', '{"a":{"bb":{"ccc":null}}}',
    '{"a":{"bb":{}}}');
SELECT count(*), sum(jb_patch(jb(target), jb(patch)) = jb(result)),
    sum(jb_patch(target, patch) = jb(json_patch(target, patch))) FROM rfc;
--> 15|15|15
SELECT jb_text(jb_patch(doc, '{"a":null,"b":{"x":null,"y":1},"price":{"net":1.250}}')) FROM t;
--> {"b":{"y":1},"price":{"net":1.250}}
SELECT jb_kind(jb_at(jb_patch(jb_object('a', x'20000000600000051000004E20'), '{"b":1}'), '$.a'));
--> extension
SELECT jb_patch(doc, NULL), jb_patch(NULL, doc), jb_patch(doc, '{}') = doc FROM t;
--> NULL|NULL|1
-- 900 levels, with a large value at the bottom and with wide levels: no product of both.
CREATE TABLE deep AS WITH made AS (
    SELECT replace(hex(zeroblob(900)), '00', '{"b":1,"a":') AS opened,
    replace(hex(zeroblob(900)), '00', '}') AS closed, hex(zeroblob(100000)) AS long)
SELECT jb(opened || '["' || long || '"]' || closed) AS low,
    jb(replace(opened, '1', '2') || '{"n":1}' || closed) AS patch,
    jb(opened || '1' || replace(closed, '}', ',"c":"' || substr(long, 1, 500) || '"}')) AS wide
FROM made;
SELECT jb_patch(low, patch) = jb(json_patch(jb_text(low), jb_text(patch))),
    jb_patch(wide, patch) = jb(json_patch(jb_text(wide), jb_text(patch))),
    jb_patch(patch, patch) = patch FROM deep;
--> 1|1|1
-- As json_type and json_array_length.
SELECT jb_type(doc), jb_type(doc, '$.a'), jb_type(doc, '$.b'), jb_type(doc, '$.b[1].c'),
    jb_type(doc, '$.b[1].d'), jb_type(doc, '$.price'), jb_type(doc, '$.none') FROM t;
--> object|integer|array|text|null|real|NULL
SELECT jb_type(jb('true')), jb_type(jb('[false]'), '$[0]'), jb_type(jb('2.00')), jb_type(jb('1e3')),
    jb_type(jb('170141183460469231731687303715884105727')), jb_type(jb_binary(x'00')),
    jb_type(NULL);
--> true|false|real|integer|integer|extension|NULL
SELECT jb_array_length(doc), jb_array_length(doc, '$.b'), jb_array_length(doc, '$.none'),
    jb_array_length(jb('[1,2]')), jb_array_length(jb('7')) FROM t;
--> 0|2|NULL|2|0

SELECT jb_contains(doc, '{"a"') FROM t;
--! jb_contains: InvalidJson: expected ':' at byte 4, found the end
SELECT jb_contains(doc, x'00') FROM t;
--! jb_contains: InvalidJsonb
SELECT jb_contains(1.5, doc) FROM t;
--! jb_contains: BadNumber: a REAL is refused, pass decimals as TEXT
SELECT jb_exists('{}', 'a');
--! jb_exists: InvalidJsonb: a document is a BLOB
SELECT jb_exists(doc, 5) FROM t;
--! jb_exists: OtherKind: names and paths are TEXT
SELECT jb_exists(x'00', 'a');
--! jb_exists: InvalidJsonb
SELECT jb_exists_any('{}', '[]');
--! jb_exists_any: InvalidJsonb: a document is a BLOB
SELECT jb_exists_any(doc, '["a",1]') FROM t;
--! jb_exists_any: OtherKind
SELECT jb_exists_all(doc, '"a"') FROM t;
--! jb_exists_all: OtherKind
SELECT jb_exists_all(doc, 'a') FROM t;
--! jb_exists_all: InvalidJson: expected a value at byte 0, found 'a'
SELECT jb_exists_all(doc, x'00') FROM t;
--! jb_exists_all: InvalidJsonb
SELECT jb_exists_any(x'00', '["a"]');
--! jb_exists_any: InvalidJsonb
SELECT jb_concat(x'00', doc) FROM t;
--! jb_concat: InvalidJsonb
SELECT jb_patch(doc, x'00') FROM t;
--! jb_patch: InvalidJsonb
SELECT jb_patch(x'00', '1');
--! jb_patch: InvalidJsonb
SELECT jb_patch(doc, '[1,]') FROM t;
--! jb_patch: InvalidJson: expected a value at byte 3, found ']'
SELECT jb_type('[]');
--! jb_type: InvalidJsonb: a document is a BLOB
SELECT jb_type(x'00');
--! jb_type: InvalidEOF
SELECT jb_array_length(doc, 'a') FROM t;
--! jb_array_length: the text is not a path: 'a': did you mean '$.a'?
CREATE TABLE deepest AS SELECT replace(hex(zeroblob(500)), '0', '[') AS opened,
    replace(hex(zeroblob(500)), '0', ']') AS closed,
    replace(hex(zeroblob(500)), '0', '{"a":') AS named,
    replace(hex(zeroblob(500)), '0', '}') AS ended;
SELECT jb_contains(opened || closed, '[' || opened || closed || ']') FROM deepest;
--! jb_contains: TooDeep
SELECT jb_kind(jb_concat(opened || closed, '[1]')) FROM deepest;
--> array
SELECT jb_concat(named || '1' || ended, '[1]') FROM deepest;
--! jb_concat: InvalidJsonb
SELECT jb_patch('{}', '{"a":' || named || '1' || ended || '}') FROM deepest;
--! jb_patch: TooDeep
SELECT jb_patch(named || '1' || ended, named || '2' || ended) = jb(named || '2' || ended)
FROM deepest;
--> 1
