-- The functions are deterministic and innocuous: an untrusted schema may use them in constraints,
-- generated columns, indexes, views and triggers.
PRAGMA trusted_schema = OFF;
CREATE TABLE person(
    doc BLOB CHECK (jb_valid(doc)),
    name TEXT AS (jb_value(doc, '$.name')),
    born INTEGER AS (jb_value(doc, '$.born')) STORED
);
CREATE INDEX person_name ON person(name);
CREATE INDEX person_city ON person(jb_value(doc, '$.address.city'));
CREATE INDEX person_tall ON person(jb_key(jb_at(doc, '$.height')))
    WHERE jb_kind(jb_at(doc, '$.height')) = 'number';
CREATE VIEW tag AS SELECT name, value FROM person, jb_each(doc, '$.tags');
CREATE TABLE log(entry TEXT);
CREATE TRIGGER logged AFTER INSERT ON person BEGIN
    INSERT INTO log VALUES (jb_text(jb_get(new.doc, 'name')));
END;
INSERT INTO person(doc) VALUES
    (jb('{"name":"Ada","born":1815,"address":{"city":"Bern"},"tags":["x","y"],"height":1.65}')),
    (jb('{"name":"Bo","born":1990,"address":{"city":"Oslo"},"height":1.8}')),
    (jb('{"name":"Ché","born":1928,"address":{"city":"Bern"},"tags":["y"]}'));
SELECT name, born, typeof(born) FROM person ORDER BY name;
--> Ada|1815|integer
--> Bo|1990|integer
--> Ché|1928|integer
SELECT * FROM tag ORDER BY 1, 2;
--> Ada|x
--> Ada|y
--> Ché|y
SELECT group_concat(entry, ' ') FROM log;
--> "Ada" "Bo" "Ché"

EXPLAIN QUERY PLAN SELECT born FROM person WHERE name = 'Ché';
--> QUERY PLAN
--> `--SEARCH person USING INDEX person_name (name=?)
SELECT born FROM person WHERE name = 'Ché';
--> 1928
EXPLAIN QUERY PLAN SELECT name FROM person WHERE jb_value(doc, '$.address.city') = 'Bern';
--> QUERY PLAN
--> `--SEARCH person USING INDEX person_city (<expr>=?)
SELECT name FROM person WHERE jb_value(doc, '$.address.city') = 'Bern' ORDER BY name;
--> Ada
--> Ché
EXPLAIN QUERY PLAN SELECT name FROM person WHERE jb_kind(jb_at(doc, '$.height')) = 'number'
    ORDER BY jb_key(jb_at(doc, '$.height'));
--> QUERY PLAN
--> `--SCAN person USING INDEX person_tall
SELECT name FROM person WHERE jb_kind(jb_at(doc, '$.height')) = 'number'
    ORDER BY jb_key(jb_at(doc, '$.height')) DESC;
--> Bo
--> Ada
PRAGMA integrity_check;
--> ok

CREATE TABLE checked(doc BLOB CHECK (jb_valid(doc)));
INSERT INTO checked VALUES (jb('{}')), (NULL);
INSERT INTO checked VALUES (jb('[]')), (x'00');
--! CHECK constraint failed: jb_valid(doc) (19)
INSERT INTO checked VALUES ('{}');
--! CHECK constraint failed: jb_valid(doc) (19)
SELECT count(*) FROM checked;
--> 2
-- All are innocuous. The version is not deterministic: it changes when the library is replaced.
SELECT group_concat(name) FROM pragma_function_list WHERE name LIKE 'jb%' AND NOT flags & 0x200000;
--> NULL
SELECT group_concat(name) FROM pragma_function_list WHERE name LIKE 'jb%' AND NOT flags & 0x800;
--> jb_version
-- These read subtypes.
SELECT group_concat(name, ' ') FROM (SELECT name FROM pragma_function_list
    WHERE name LIKE 'jb%' AND flags & 0x100000 ORDER BY name);
--> jb_array jb_group_array jb_group_object jb_insert jb_object jb_of jb_remove jb_replace jb_set
-- An index refuses what its function refuses, and nothing is stored.
CREATE TABLE plain(doc);
CREATE INDEX plain_id ON plain(jb_value(doc, '$.id'));
INSERT INTO plain VALUES (jb('{"id":1}')), ('{"id":2}');
--! jb_value: InvalidJsonb: a document is a BLOB
SELECT count(*) FROM plain;
--> 0
