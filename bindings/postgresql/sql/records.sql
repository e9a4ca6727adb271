\set ECHO none \a \t
SET datestyle = ISO;
-- Records of objects.
CREATE TYPE point_of AS (x int, y numeric(6, 2));
CREATE DOMAIN positive AS int CHECK (VALUE > 0);
CREATE DOMAIN needed AS int NOT NULL;
CREATE DOMAIN ordered AS point_of CHECK ((VALUE).x <= (VALUE).y);
CREATE TYPE all_of AS (
    i int, t text, c char(3), b bool, d date, n positive, a int[], m text[], p point_of,
    ps point_of[], k kohiblad, ks kohiblad[], j json, jb jsonb
);
SELECT * FROM kohiblad_populate_record(NULL::point_of, '{"x":1,"y":2.345,"z":3}');
SELECT * FROM kohiblad_populate_record((7, 8)::point_of, '{"x":1}');
SELECT kohiblad_populate_record((7, 8)::point_of, '{}'),
    kohiblad_populate_record((7, 8)::point_of, NULL);
SELECT i, t, c, b, d, n FROM kohiblad_populate_record(NULL::all_of,
    '{"i":"5","t":[1,{"a":2.50}],"c":"xyz","b":true,"d":"2026-11-27","n":1}');
SELECT a, m, p, ps FROM kohiblad_populate_record(NULL::all_of,
    '{"a":[[1,2],[3,null]],"m":[{"a":1},"x"],"p":{"y":1},"ps":[{"x":1},null,"(5,6)"]}');
SELECT a, a IS NULL, m, p FROM kohiblad_populate_record(NULL::all_of,
    '{"a":"{1,2}","m":[],"p":"(1,2)"}');
-- Documents and JSON come as they are; a date of a document is a text to other types, as by ->>.
SELECT k, ks, j, jb FROM kohiblad_populate_record(NULL::all_of,
    '{"k":"text","ks":["a",1.50,null,[2]],"j":"text","jb":{"b":1.50}}');
SELECT k = day, t
FROM (SELECT '\x20000000600000051000000001'::kohiblad AS day) s,
    kohiblad_populate_record(NULL::all_of, kohiblad_build_object('k', day, 't', day));
SELECT refusal($$ SELECT kohiblad_populate_record(NULL::all_of, '{"a":[[1],2]}') $$);
SELECT refusal($$ SELECT kohiblad_populate_record(NULL::all_of, '{"a":[[1],[2,3]]}') $$);
SELECT refusal($$ SELECT kohiblad_populate_record(NULL::all_of, '{"a":1}') $$);
SELECT refusal($$ SELECT kohiblad_populate_record(NULL::all_of, '{"a":[[[[[[[1]]]]]]]}') $$);
SELECT refusal($$ SELECT kohiblad_populate_record(NULL::all_of, '{"i":"x"}') $$);
SELECT refusal($$ SELECT kohiblad_populate_record(NULL::all_of, '{"n":-1}') $$);
SELECT refusal($$ SELECT kohiblad_populate_record(NULL::all_of, '{"p":[1]}') $$);
SELECT refusal($$ SELECT kohiblad_populate_record(NULL::all_of, '[1]') $$);
SELECT refusal($$ SELECT kohiblad_populate_record(NULL::all_of, '{"t":"\u0000"}') $$);
SELECT refusal($$ SELECT kohiblad_populate_record(1, '{}') $$);
SELECT refusal($$ SELECT kohiblad_populate_record(NULL::record, '{}') $$);
SELECT kohiblad_populate_record(ROW(1, 2), '{"f1":3}');
SELECT * FROM kohiblad_populate_record(NULL::record, '{"x":1}') AS (x int, y needed) WHERE false;
SELECT refusal($$ SELECT * FROM kohiblad_populate_record(NULL::record, '{"x":1}')
                  AS (x int, y needed) $$);
SELECT kohiblad_populate_record(NULL::ordered, '{"x":1,"y":2}');
SELECT refusal($$ SELECT kohiblad_populate_record(NULL::ordered, '{"x":3,"y":2}') $$);
-- Records of arrays of objects.
SELECT * FROM kohiblad_populate_recordset(NULL::point_of, '[{"x":1},{"y":2}]');
SELECT * FROM kohiblad_populate_recordset((7, 8)::point_of, '[{"x":1},{"y":2},{}]');
SELECT count(*) FROM kohiblad_populate_recordset(NULL::point_of, NULL);
SELECT refusal($$ SELECT kohiblad_populate_recordset(NULL::point_of, '{}') $$);
SELECT refusal($$ SELECT kohiblad_populate_recordset(NULL::point_of, '[1]') $$);
SELECT refusal($$ SELECT * FROM kohiblad_populate_recordset(ROW(1), '[{"f1":1}]')
                  AS (a text, b int) $$);
SELECT kohiblad_populate_recordset(ROW(1, 2), '[{"f1":3}]');
-- Columns that the query lists.
SELECT * FROM kohiblad_to_record('{"a":1,"b":[1,2],"c":{"d":2.50}}')
    AS t(a int, b int[], c kohiblad, x text);
SELECT * FROM kohiblad_to_recordset('[{"a":1},{"a":2,"b":"x"}]') AS t(a int, b text);
SELECT refusal($$ SELECT kohiblad_to_record('{}') $$),
    refusal($$ SELECT kohiblad_to_recordset('[]') $$);
SELECT sum(x), count(y)
FROM kohiblad_to_recordset((SELECT kohiblad_agg(kohiblad_build_object('x', i, 'y', i / 2.0))
                            FROM generate_series(1, 10000) i)) AS t(x int, y numeric);
