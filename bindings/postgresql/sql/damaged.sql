\set ECHO none \a \t
-- Bytes that were damaged on the disk: each call returns or raises an error, and none breaks down.
-- The column is made of type bytea, and then only its type is changed.
CREATE TABLE damaged (d bytea);
INSERT INTO damaged
    WITH whole AS (
        SELECT '{"a":[1,-2.50,"xyz",{"k":null}],"b":true,"c":12345678901234567890}'::kohiblad::bytea
        AS b)
    SELECT substring(b FROM 1 FOR n) FROM whole, generate_series(0, length(b)) n
    UNION SELECT set_bit(b, n, 1 - get_bit(b, n))
    FROM whole, generate_series(0, 8 * length(b) - 1) n
    UNION SELECT set_bit(b, n, 1 - get_bit(b, n))
    FROM (SELECT d::bytea AS b
          FROM (VALUES ('-2.50'::kohiblad), ('12345678901234567890'), ('true'),
                       ('\x40000001100000015000000d6180000001600000051000000001')) v(d)) s,
         generate_series(0, 8 * length(b) - 1) n;
SET allow_system_table_mods = on;
UPDATE pg_attribute SET atttypid = 'kohiblad'::regtype
WHERE attrelid = 'damaged'::regclass AND attname = 'd';

-- The rows where a call neither returns nor raises one of these errors.
CREATE FUNCTION bad_ends(call text, VARIADIC refused text[] = '{}') RETURNS bigint
LANGUAGE sql AS $$
    SELECT count(*)
    FROM damaged, LATERAL (SELECT left(refusal(
        format('SELECT %s FROM damaged d WHERE d.ctid = %L', call, damaged.ctid)), 5)) r(state)
    WHERE state NOT IN ('not r', 'XX001', '22P05', '54000') AND state <> ALL (refused)
$$;
SELECT count(*) > 500 FROM damaged;
SELECT bad_ends('d::text'), bad_ends('kohiblad_pretty(d)'), bad_ends('kohiblad_canonical(d)');
SELECT bad_ends('kohiblad_kind(d)'), bad_ends('kohiblad_length(d)'), bad_ends('kohiblad_key(d)');
SELECT bad_ends($$ d -> 'a' $$), bad_ends($$ d ->> 'b' $$), bad_ends($$ d #>> '{a,3,k}' $$);
SELECT bad_ends($$ d -> 'a' -> -1 $$), bad_ends($$ d #> '{}' $$), bad_ends($$ d #>> '{}' $$);
SELECT bad_ends($$ kohiblad_at(d, '["a",3,"k"]') $$),
    bad_ends($$ kohiblad_at('[[1]]', d) $$, '22023');
SELECT bad_ends('(SELECT count(*) FROM kohiblad_each(d))'), bad_ends('kohiblad_hash(d)');
SELECT bad_ends('kohiblad_agg(d)'), bad_ends('d::bytea');
SELECT bad_ends($$ kohiblad_survey(d, '["a",1]') $$),
    bad_ends($$ kohiblad_survey('[[1]]', d) $$, '22023');
SELECT bad_ends('d::json'), bad_ends('d::jsonb');
SELECT bad_ends('d::numeric', '22023'), bad_ends('d::bool', '22023');
SELECT bad_ends('(SELECT sum(kohiblad_cmp(d, e.d)) FROM (SELECT d FROM damaged LIMIT 50) e)');
SELECT bad_ends($$ d @> '{"a":[1]}' $$), bad_ends($$ '{"a":[1]}' @> d $$), bad_ends('d @> d');
SELECT bad_ends($$ d ? 'a' $$), bad_ends($$ d ?| '{x,a}' $$), bad_ends($$ d ?& '{a,b}' $$);
SELECT bad_ends($$ d || '[1]' $$), bad_ends($$ '{"a":1}' || d $$), bad_ends('d || d');
SELECT bad_ends($$ d - 'a' $$, '22023'), bad_ends('d - 0', '22023'),
    bad_ends($$ d - '{a,b}'::text[] $$, '22023');
SELECT bad_ends($$ d #- '{a,3,k}' $$, '22023', '22P02'),
    bad_ends($$ kohiblad_set(d, '{a,0}', '1') $$, '22023', '22P02'),
    bad_ends($$ kohiblad_insert(d, '{a,0}', '1') $$, '22023', '22P02');
SELECT bad_ends($$ kohiblad_set('{"a":1}', '{a}', d) $$), bad_ends('kohiblad_strip_nulls(d)'),
    bad_ends($$ d['a'][0] $$);
SELECT bad_ends($$ kohiblad_merge_patch(d, '{"a":null,"c":{"x":1}}') $$),
    bad_ends($$ kohiblad_merge_patch('{"a":1}', d) $$), bad_ends('kohiblad_merge_patch(d, d)');
SELECT bad_ends('(SELECT count(*) FROM kohiblad_array_elements(d))', '22023'),
    bad_ends('(SELECT count(*) FROM kohiblad_object_keys(d))', '22023'),
    bad_ends('(SELECT count(*) FROM kohiblad_each_text(d))');
SELECT bad_ends('to_kohiblad(ROW(d))'), bad_ends('kohiblad_build_array(d, 1)');
SELECT bad_ends('(SELECT t.a[1] FROM kohiblad_to_record(d) AS t(a text[], b bool, c numeric))',
                '22023', '22P02');
SELECT bad_ends($$ (SELECT count(*) FROM kohiblad_path_query(d, '$.a[*]')) $$);
SELECT bad_ends($$ d @? '$.*[last].k' $$),
    bad_ends($$ d @@ '$.a[0 to 2] < $.c && !($.b == true)' $$),
    bad_ends($$ kohiblad_path_query_array(d, '$.* ? (@[*] != null)') $$);
CREATE TABLE written_to (d kohiblad);
INSERT INTO written_to VALUES ('{}');
SELECT count(*) FROM damaged, LATERAL (SELECT left(refusal(
    format($$ UPDATE written_to SET d = (SELECT d FROM damaged d WHERE d.ctid = %1$L);
              UPDATE written_to SET d['a'][1] = (SELECT d FROM damaged d WHERE d.ctid = %1$L) $$,
           damaged.ctid)), 5)) r(state)
WHERE state NOT IN ('not r', 'XX001', '22P05', '54000', '22023', '22P02');
CREATE INDEX ON written_to USING gin (d);
SELECT count(*) FROM damaged, LATERAL (SELECT left(refusal(
    format('INSERT INTO written_to SELECT d FROM damaged d WHERE d.ctid = %L', damaged.ctid)),
    5)) r(state)
WHERE state NOT IN ('not r', 'XX001', '22P05', '54000');
DROP TABLE damaged, written_to;
-- ANALYZE passes a damaged row over, and counts the keys of the others.
CREATE TABLE spoiled (d bytea);
INSERT INTO spoiled SELECT '[1]'::kohiblad::bytea FROM generate_series(1, 20)
    UNION ALL SELECT '\x8000000110000002c328';
UPDATE pg_attribute SET atttypid = 'kohiblad'::regtype
WHERE attrelid = 'spoiled'::regclass AND attname = 'd';
ANALYZE spoiled;
SELECT most_common_elem_freqs FROM pg_stats WHERE tablename = 'spoiled';
DROP TABLE spoiled;
