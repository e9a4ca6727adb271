\set ECHO none \a \t
-- Casts to scalars: the results and errors of jsonb, with the other name.
CREATE FUNCTION result_of(command text) RETURNS text LANGUAGE plpgsql AS $$
DECLARE
    result text;
BEGIN
    EXECUTE command INTO result;
    RETURN result;
EXCEPTION WHEN OTHERS THEN
    RETURN SQLSTATE || ' ' || SQLERRM;
END $$;
CREATE TABLE scalars AS SELECT json, type
FROM unnest('{"null",true,false,"\"\"","\"1\"","\"true\"","[]","[1]","{}","{\"a\":1}",
              0,1,-1,1.50,0.5,1.5,2.5,-2.5,0.1,0.30,123456789.123456789,100000000000000000000.5,
              32767,32768,-32768,-32769,32767.4,32767.5,2147483647,2147483648,-2147483648.5,
              9223372036854775807,9223372036854775808,-9223372036854775808,-9223372036854775809,
              9223372036854775807.4,170141183460469231731687303715884105727,
              -170141183460469231731687303715884105728,
              0.000000000000000000000000000000000000000000000000000000000001}'::text[]) json,
     unnest('{numeric,int2,int4,int8,float4,float8,bool}'::text[]) type;
SELECT count(*), count(*) FILTER (WHERE of_kohiblad = replace(of_jsonb, 'jsonb', 'kohiblad'))
FROM (SELECT result_of(format('SELECT %L::kohiblad::%s', json, type)) AS of_kohiblad,
             result_of(format('SELECT %L::jsonb::%s', json, type)) AS of_jsonb FROM scalars) s;
SELECT '1.50'::kohiblad::numeric, '2.5'::kohiblad::int, '-3.5'::kohiblad::int8;
SELECT 'true'::kohiblad::bool, ('[7,0.1]'::kohiblad -> 0)::int2, ('[7,0.1]'::kohiblad -> 1)::float8;
SELECT refusal($$ SELECT '"1"'::kohiblad::numeric $$), refusal($$ SELECT '1'::kohiblad::bool $$);
SELECT refusal($$ SELECT '{}'::kohiblad::int $$), refusal($$ SELECT '70000'::kohiblad::int2 $$);
SELECT refusal($$ SELECT '\x20000000600000051000000001'::kohiblad::int $$);
SELECT NULL::kohiblad::int IS NULL, ('{}'::kohiblad -> 'a')::bool IS NULL;
-- Numbers in forms that are no longer written: a signed zero, and a decimal with a byte between.
SELECT '\x20000000200000024000'::bytea::kohiblad::int,
    '\x20000000200000137000000000000000000000000000000096ff02'::bytea::kohiblad::numeric;
-- Numbers of all lengths and scales have the digits of the text.
SELECT count(*), bool_and(n::kohiblad::numeric::text = n),
    bool_and(format('[%s]', n)::kohiblad::jsonb::text = format('[%s]', n))
FROM generate_series(1, 38) length, generate_series(0, 80) scale,
    unnest('{31415926535897932384626433832795028841,100000000000000000000000000000000000000,
             -99999999999999999999999999999999999999}'::text[]) digits,
    LATERAL (SELECT (left(digits, length + (digits < '0')::int)::numeric
                     * ('1e-' || scale)::numeric)::text) numbers(n);
-- Only explicit casts, so that no operator is chosen by them.
SELECT refusal($$ SELECT '5'::kohiblad + 1 $$), refusal($$ SELECT '5'::kohiblad = 5 $$);
CREATE TABLE counted (n int, d kohiblad);
SELECT refusal($$ INSERT INTO counted (n) SELECT '5'::kohiblad $$);
SELECT sum((d -> 'id')::int) = 200010000 FROM rows_of;
-- Casts from scalars: the document of the same JSON.
SELECT 5::kohiblad, (-7)::int2::kohiblad, 1.50::kohiblad, 1e2::kohiblad, true::kohiblad;
SELECT count(*), count(*) FILTER (WHERE json::kohiblad::bytea::text
                                        = result_of(format('SELECT %L::%s::kohiblad::bytea',
                                                           json, type)))
FROM scalars
WHERE type NOT LIKE 'float%' AND json !~ '["{[]' AND json <> 'null'
  AND result_of(format('SELECT (%L::%s::text)::jsonb', json, type)) = json;
SELECT kohiblad(5), kohiblad(0.50), kohiblad('"5"'), NULL::int::kohiblad IS NULL;
SELECT ('0.' || repeat('7', 38))::numeric::kohiblad, 5::numeric(6, 3)::kohiblad::numeric;
SELECT ('5.' || repeat('0', 37))::numeric::kohiblad::numeric = 5;
SELECT kohiblad_agg((i / 2.0)::numeric(3, 1)::kohiblad ORDER BY i) FROM generate_series(1, 3) i;
-- Numbers that JSON or the format has not.
SELECT refusal(command), detail_of(command)
FROM unnest(ARRAY['SELECT ''NaN''::numeric::kohiblad', 'SELECT ''-Infinity''::numeric::kohiblad',
                  'SELECT 170141183460469231731687303715884105728::kohiblad',
                  'SELECT 1e-256::numeric::kohiblad', 'SELECT 1e40::kohiblad']) command;
SELECT (1e-255::numeric)::kohiblad::numeric = 1e-255::numeric;
SELECT refusal('SELECT 1.5::float8::kohiblad'), refusal('SELECT 1.5::float4::kohiblad');
SELECT refusal('INSERT INTO counted (d) SELECT 5');
-- A jsonb is taken where a document is: of both types the document's is chosen.
CREATE FUNCTION mixed(expression text) RETURNS text LANGUAGE plpgsql AS $$
DECLARE
    shown text;
BEGIN
    EXECUTE format('SELECT (%s)::text || '' '' || pg_typeof(%1$s)
        FROM (SELECT ''{"a": 1.50, "b": [1, 2]}''::kohiblad AS k, ''{"a": 1.5}''::jsonb AS j) s',
        expression) INTO shown;
    RETURN shown;
END $$;
SELECT expression, mixed(expression) FROM (VALUES
    (1, 'k @> j'), (2, 'j <@ k'), (3, 'j @> k'), (4, 'k || j'), (5, 'j || k'), (6, 'k = j'),
    (7, 'j = k -> ''a'''), (8, 'k <> j'), (9, 'k > j'), (10, 'coalesce(k -> ''x'', j)'),
    (11, 'coalesce(j -> ''x'', k)'), (12, 'CASE WHEN k ? ''x'' THEN k ELSE j END'),
    (13, 'CASE WHEN k ? ''x'' THEN j ELSE k -> ''b'' END'), (14, 'nullif(k -> ''a'', j -> ''a'')'),
    (15, 'greatest(j, k)'), (16, '(ARRAY[j, k])[1]'), (17, 'k = ANY (ARRAY[j])'), (18, 'j IN (k)'),
    (19, 'kohiblad_set(k, ''{a}'', j)'), (20, 'k @> jsonb_build_object(''a'', 1.5)'),
    (21, 'kohiblad_typeof(j)'), (22, 'k || ''{}'''), (23, 'j || ''{}'''), (24, 'j @> ''{}''')
) v(number, expression) ORDER BY number;
SELECT v FROM (SELECT '[1]'::jsonb AS v UNION ALL SELECT '[1.0]'::kohiblad) s;
-- What takes any value takes a jsonb as one.
SELECT to_kohiblad('{"a": 1.0}'::jsonb), kohiblad_build_array('[1]'::jsonb, '"a"'::jsonb),
    (SELECT kohiblad_agg(v) FROM (VALUES ('1'::jsonb), (NULL)) j(v)),
    (SELECT kohiblad_object_agg('k', v) FROM (VALUES ('1'::jsonb)) j(v)),
    (SELECT kohiblad_object_agg(7, v) FROM (VALUES ('[]'::jsonb)) j(v));
-- An index finds what a jsonb asks for.
CREATE TABLE mixed_rows AS SELECT kohiblad_build_object('id', i) AS d FROM generate_series(1, 500) i;
CREATE INDEX mixed_content ON mixed_rows USING gin (d);
CREATE INDEX mixed_order ON mixed_rows (d);
SET enable_seqscan = off;
SELECT plan_has($$ SELECT FROM mixed_rows WHERE d @> '{"id": 7}'::jsonb $$, 'on mixed_content');
SELECT plan_has($$ SELECT FROM mixed_rows WHERE d = '{"id": 7}'::jsonb $$, 'on mixed_order');
SELECT d FROM mixed_rows WHERE d @> '{"id": 7}'::jsonb;
RESET enable_seqscan;
-- A number of a jsonb past the limits is refused where it is compared.
SELECT refusal($$ SELECT '1'::kohiblad = '1e40'::jsonb $$);
