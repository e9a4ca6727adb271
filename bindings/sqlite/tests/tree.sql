CREATE TABLE t(doc BLOB);
INSERT INTO t VALUES (jb('{"a":{"b c":[1,"x",{"d":null}]},"e":2.50,"f":[],"é":true,"":{}}'));

SELECT key, value, type, atom, fullkey, path FROM t, jb_tree(doc);
--> NULL|{"":{},"a":{"b c":[1,"x",{"d":null}]},"e":2.50,"f":[],"é":true}|object|NULL|$|$
--> |{}|object|NULL|$.""|$
--> a|{"b c":[1,"x",{"d":null}]}|object|NULL|$.a|$
--> b c|[1,"x",{"d":null}]|array|NULL|$.a."b c"|$.a
--> 0|1|integer|1|$.a."b c"[0]|$.a."b c"
--> 1|x|text|x|$.a."b c"[1]|$.a."b c"
--> 2|{"d":null}|object|NULL|$.a."b c"[2]|$.a."b c"
--> d|NULL|null|NULL|$.a."b c"[2].d|$.a."b c"[2]
--> e|2.50|real|2.50|$.e|$
--> f|[]|array|NULL|$.f|$
--> é|1|true|1|$."é"|$
-- From a path: the first row has its last step for a key.
SELECT key, value, fullkey, path FROM t, jb_tree(doc, '$.a."b c"[#-1]');
--> 2|{"d":null}|$.a."b c"[#-1]|$.a."b c"
--> d|NULL|$.a."b c"[#-1].d|$.a."b c"[#-1]
SELECT key, value, fullkey, path FROM t, jb_tree(doc, '$.e');
--> e|2.50|$.e|$
SELECT key, jb_text(document), kind, type, fullkey, path, id, parent FROM jb_tree(jb('7'));
--> NULL|7|number|integer|$|$|0|NULL
SELECT key, value, fullkey, path, parent FROM t, jb_each(doc, '$.a."b c"');
--> 0|1|$.a."b c"[0]|$.a."b c"|NULL
--> 1|x|$.a."b c"[1]|$.a."b c"|NULL
--> 2|{"d":null}|$.a."b c"[2]|$.a."b c"|NULL
SELECT key, value, fullkey, path FROM t, jb_each(doc, '$.e');
--> NULL|2.50|$.e|$.e
SELECT count(*) FROM t, jb_tree(doc, '$.none');
--> 0
SELECT count(*) FROM jb_tree(NULL);
--> 0
SELECT count(*) FROM jb_tree;
--> 0
-- Each row has another id, parents are found by it, and each fullkey leads to the value.
SELECT count(*), count(DISTINCT id) FROM t, jb_tree(doc);
--> 11|11
SELECT child.fullkey FROM t, jb_tree(doc) child, jb_tree(doc) parent
WHERE child.parent = parent.id AND child.path <> parent.fullkey;
SELECT count(*), sum(jb_at(doc, fullkey) = document) FROM t, jb_tree(doc);
--> 11|11
SELECT count(*) FROM t, jb_each(doc) c, jb_tree(doc) r WHERE c.id = r.id AND c.fullkey = r.fullkey;
--> 5
-- Names that a path cannot have are in it as they are.
SELECT fullkey FROM jb_each(jb('{"a\"b":1,"a.b":2,"1a":3,"a1":4}'));
--> $."1a"
--> $."a"b"
--> $."a.b"
--> $.a1
-- The same rows as json_tree and json_each, in documents whose keys are in order.
CREATE TABLE texts(text);
INSERT INTO texts VALUES ('{"a":{"b":[1,{"c":null}],"d":[[],[[2]],{}]},"e f":"x"}'),
    ('[1,[2,[3,{"a":4}]]]'), ('"x"'), ('{}'), ('[]'), ('true'), ('[null,true,false,-1,"a"]');
SELECT count(*), sum(ours IS theirs) FROM (SELECT
    (SELECT json_group_array(json_array(o.key, o.value, o.type, o.atom, p.fullkey, o.fullkey,
            o.path))
        FROM jb_tree(jb(text)) o LEFT JOIN jb_tree(jb(text)) p ON p.id = o.parent) AS ours,
    (SELECT json_group_array(json_array(o.key, o.value, o.type, o.atom, p.fullkey, o.fullkey,
            o.path))
        FROM json_tree(text) o LEFT JOIN json_tree(text) p ON p.id = o.parent) AS theirs
    FROM texts);
--> 7|7
SELECT count(*), sum(ours IS theirs) FROM (SELECT
    (SELECT json_group_array(json_array(key, value, type, atom, parent, fullkey, path))
        FROM jb_each(jb(text), start)) AS ours,
    (SELECT json_group_array(json_array(key, value, type, atom, parent, fullkey, path))
        FROM json_each(text, start)) AS theirs
    FROM texts, (SELECT '$' AS start UNION ALL SELECT '$.a' UNION ALL SELECT '$[1]' UNION ALL
        SELECT '$.a.d[1]'));
--> 28|28

-- A key is looked up, in objects by a name and in arrays by an index; SQLite tests it again.
EXPLAIN QUERY PLAN SELECT value FROM t, jb_each(doc) WHERE key = 'e';
--> QUERY PLAN
--> |--SCAN t
--> `--SCAN jb_each VIRTUAL TABLE INDEX 5:
SELECT key, value, fullkey, path, jb_each.rowid FROM t, jb_each(doc) WHERE key = 'e';
--> e|2.50|$.e|$|0
SELECT jb_each.id - other.id FROM t, jb_each(doc), jb_each(doc) other
WHERE jb_each.key = 'é' AND +other.key = 'é';
--> 0
SELECT key, value, id FROM t, jb_each(doc, '$.a."b c"') WHERE key = 1;
--> 1|x|76
SELECT value FROM t, jb_each(doc, '$.a."b c"') WHERE key IN (0, 2, 5, -1);
--> 1
--> {"d":null}
SELECT key FROM t, jb_each(doc) WHERE key IN ('none', 'e', '', 'f');
--> 
--> e
--> f
SELECT count(*) FROM t, jb_each(doc) WHERE key = 'none' OR key = NULL;
--> 0
SELECT key FROM t, jb_each(doc) WHERE key = 'E' COLLATE NOCASE;
--> e
SELECT key FROM jb_each(jb('{"5":1,"6":2}')) WHERE key = 5;
SELECT key FROM jb_each(jb('{"5":1,"6":2}')) WHERE key = CAST(5 AS INTEGER);
--> 5
SELECT key FROM jb_each(jb('[7,8]')), (SELECT '1' AS wanted) WHERE key = wanted;
SELECT key FROM jb_each(jb('[7,8]')) WHERE key = 1.0;
--> 1
SELECT count(*) FROM jb_each(jb('"x"')) WHERE key = 'x';
--> 0
SELECT names.value, item.value FROM t, jb_each(jb('["e","x","é"]')) names, jb_each(doc) item
WHERE item.key = names.value;
--> e|2.50
--> é|1

SELECT * FROM jb_tree(x'00');
--! jb_tree: InvalidJsonb
SELECT * FROM jb_tree('[]');
--! jb_tree: InvalidJsonb: a document is a BLOB
SELECT * FROM jb_tree(jb('[]'), 'a');
--! jb_tree: the text is not a path: 'a': did you mean '$.a'?
SELECT * FROM jb_tree(jb('[]'), 5);
--! jb_tree: OtherKind: names and paths are TEXT
-- It checks the whole document.
SELECT value FROM jb_tree(x'800000024000000010000001');
--! jb_tree: InvalidJsonb
SELECT value FROM jb_each(x'4000000110000002500000016161') WHERE key = 'aa';
--! jb_each: InvalidJsonb
-- 1,000 levels.
CREATE TABLE deep AS SELECT jb(replace(hex(zeroblob(500)), '0', '[')
    || replace(hex(zeroblob(500)), '0', ']')) AS doc;
SELECT count(*), max(length(fullkey)), count(DISTINCT id) FROM deep, jb_tree(doc);
--> 1000|2998|1000
