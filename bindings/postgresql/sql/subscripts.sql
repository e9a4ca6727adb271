\set ECHO none \a \t
-- Subscripts that are read.
SELECT ('{"a":[1,{"b":2.50}]}'::kohiblad)['a'][1]['b'], ('[1,2]'::kohiblad)[-1];
SELECT ('[1,2]'::kohiblad)['1'], ('[1]'::kohiblad)[5] IS NULL, ('[1]'::kohiblad)[NULL] IS NULL;
SELECT ('5'::kohiblad)[0] IS NULL, (NULL::kohiblad)['a'] IS NULL;
SELECT refusal($$ SELECT ('[1]'::kohiblad)[0:1] $$), refusal($$ SELECT ('[1]'::kohiblad)[1.0] $$);
-- Subscripts that are written.
CREATE TABLE written (d kohiblad);
CREATE FUNCTION write(given kohiblad, place text, value text) RETURNS kohiblad
LANGUAGE plpgsql AS $$
DECLARE
    result kohiblad;
BEGIN
    EXECUTE format('INSERT INTO written VALUES (%L)', given);
    EXECUTE format('UPDATE written SET d%s = %L', place, value);
    DELETE FROM written RETURNING d INTO result;
    RETURN result;
END $$;
SELECT write('{"a":1}', '[''a'']', '[2]'), write('{}', '[''a''][''b'']', '1'),
    write('[]', '[2]', '1');
SELECT write('{}', '[''a''][2][''b''][1]', '1.50'), write('[0]', '[-1]', '1'),
    write('[0]', '[1]', '1');
SELECT write(NULL, '[''a'']', '1'), write(NULL, '[1]', '1'), write('{}', '[0]', '1'),
    write('{}', '[''a'']', NULL);
SELECT write('[[1],[2]]', '[1][3]', '{"x":1}');
SELECT refusal($$ SELECT write('[0]', '[-2]', '1') $$),
    refusal($$ SELECT write('1', '[0]', '1') $$);
SELECT refusal($$ SELECT write('{"a":1}', '[''a''][''b'']', '1') $$);
SELECT refusal($$ SELECT write('{}', '[NULL]', '1') $$);
SELECT refusal($$ SELECT write('{}', repeat('[0]', 1001), '1') $$);
SELECT write('[]', repeat('[0]', 1000), '1') IS NOT NULL;
SELECT write('[]', '[100000]', '1') -> -1, kohiblad_length(write('[]', '[100000]', '1'));
-- Two in one statement, and an item of an array that is a value of a composite type.
CREATE TYPE both_of AS (l kohiblad, r kohiblad);
CREATE TABLE held (v both_of);
INSERT INTO held VALUES (('{"a":1}', '[1]'));
UPDATE held SET v.l['b'] = '2', v.r[0] = '3';
TABLE held;
CREATE FUNCTION made() RETURNS kohiblad LANGUAGE plpgsql AS $$
DECLARE
    d kohiblad = '{}';
BEGIN
    d['a']['b'] := 'true';
    RETURN d;
END $$;
SELECT made();
-- Gaps: jsonb makes arrays of at most 16,777,216 items. What is past that is refused at once.
SELECT write('[0]', '[1500]', '1') = kohiblad_build_array(VARIADIC '{0}'::int[]
        || array_fill(NULL::int, '{1499}') || 1),
    kohiblad_length(write('{}', '[''a''][4097]', '1') -> 'a');
SELECT kohiblad_length(write('[1]', '[1000000]', '1'));
SELECT write('[0]', '[2][''a''][3]', '1'), write('[[1],[2]]', '[1][3][1]', '{"x":1}');
SELECT write('{"a":[1],"b":{"bb":2,"c":[[]]},"z":"x"}', '[''b''][''c''][0][2][1]', 'true'),
    write('{"n":null}', '[''x''][-3][2]', 'null');
SELECT write('[[],[[7]],"x"]', '[1][-1][3]', '[]'), write('[[],[[7]],"x"]', '[-2][3][0][1]', '2');
SET statement_timeout = '3s';
SELECT refusal($$ SELECT write('[]', '[16777216]', '1') $$);
SELECT refusal($$ SELECT write('[]', '[40000000]', '1') $$);
SELECT refusal($$ SELECT write('{"a":[1]}', '[''a''][40000000]', '1') $$);
SELECT refusal($$ SELECT write('{}', '[''a''][2147483647][''b'']', '1') $$);
SELECT refusal($$ SELECT write('[]', repeat('[16000000]', 17), '1') $$);
SELECT refusal($$ SELECT write('[]', '[16777215][16777215][16777215]', '1') $$);
SELECT refusal($$ SELECT write('[1]', '[8388608][''a''][8388609]', '1') $$);
RESET statement_timeout;
