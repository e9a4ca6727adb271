\set ECHO none \a \t
-- Look-ups in long documents, of which only slices are fetched. d #> '{}' has all bytes at hand.
CREATE FUNCTION noise(seed int, size int) RETURNS text LANGUAGE sql AS $$
    SELECT string_agg(md5(seed || ',' || i), '') FROM generate_series(1, size / 32) i
$$;
CREATE TABLE stored_plain (name text, d kohiblad);
ALTER TABLE stored_plain ALTER d SET STORAGE EXTERNAL;
INSERT INTO stored_plain
    SELECT 'members', kohiblad_object_agg('key' || i, CASE i % 20
        WHEN 3 THEN ('[' || i || ',{"in":["x",' || i || ']},null]')::kohiblad
        WHEN 7 THEN to_kohiblad(i)
        ELSE to_kohiblad(noise(i, 2000)) END) FROM generate_series(1, 300) i
    UNION ALL
    SELECT 'many members', kohiblad_object_agg('key' || i, to_kohiblad(i))
    FROM generate_series(1, 8000) i
    UNION ALL
    SELECT 'items', kohiblad_agg(CASE i % 3 WHEN 0 THEN to_kohiblad(noise(i, 400))
        ELSE ('{"id":' || i || ',"tags":["a","b"]}')::kohiblad END ORDER BY i)
    FROM generate_series(0, 2999) i
    UNION ALL
    SELECT 'inside', kohiblad_build_object('a', noise(0, 100000), 'b',
        kohiblad_build_array(1, kohiblad_object_agg('key' || i, to_kohiblad(noise(i, 300))), 'end'))
    FROM generate_series(1, 600) i
    UNION ALL
    SELECT 'texts', kohiblad_build_array(noise(1, 60000), 'key3', noise(2, 60000))
    UNION ALL
    SELECT 'text', to_kohiblad(noise(3, 200000));
CREATE TABLE compressed (name text, d kohiblad);
ALTER TABLE compressed ALTER d SET STORAGE EXTENDED;
-- What is written again is compressed, if it can be.
INSERT INTO compressed SELECT name || ', compressed', (d #> '{}') FROM stored_plain
    UNION ALL SELECT 'repeated, compressed', kohiblad_object_agg('key' || i,
        to_kohiblad(CASE WHEN i % 9 = 0 THEN i::text ELSE repeat(md5(i::text), 100) END))
    FROM generate_series(1, 200) i;
CREATE VIEW long AS SELECT * FROM stored_plain UNION ALL SELECT * FROM compressed;
SELECT name, length(d::bytea) > 100000, pg_column_size(d) < length(d::bytea) / 2 FROM long
ORDER BY name;

-- Each look-up finds what it finds in all bytes.
CREATE TABLE sought AS
    SELECT 'key' || i AS key, i AS index
    FROM unnest('{0,1,2,3,7,23,99,299,300,599,600,8000}'::int[]) i
    UNION ALL VALUES ('a', -1), ('b', -2), ('none', -3000), ('', 2999);
SELECT count(*) FROM long, sought WHERE (d -> key) IS DISTINCT FROM ((d #> '{}') -> key)
    OR (d ->> key) IS DISTINCT FROM ((d #> '{}') ->> key)
    OR (d ? key) IS DISTINCT FROM ((d #> '{}') ? key)
    OR (d -> index) IS DISTINCT FROM ((d #> '{}') -> index)
    OR (d ->> index) IS DISTINCT FROM ((d #> '{}') ->> index);
SELECT count(*) FROM long, sought,
    unnest(ARRAY['[1,"in",1]', '[-1]', '["id"]', '["tags",0]', '["tags",2]', '[1,"key3"]', '[]',
                 '[1,"key600"]', '["1"]']::kohiblad[]) rest,
    LATERAL (SELECT kohiblad_build_array(key) || rest AS by_key,
                    kohiblad_build_array(index) || rest AS by_index) p,
    LATERAL (SELECT ARRAY(SELECT kohiblad_array_elements_text(by_key)) AS keys,
                    ARRAY(SELECT kohiblad_array_elements_text(by_index)) AS indexes) t
WHERE kohiblad_at(d, by_key) IS DISTINCT FROM kohiblad_at(d #> '{}', by_key)
    OR kohiblad_at(d, by_index) IS DISTINCT FROM kohiblad_at(d #> '{}', by_index)
    OR (d #> keys) IS DISTINCT FROM ((d #> '{}') #> keys)
    OR (d #>> indexes) IS DISTINCT FROM ((d #> '{}') #>> indexes)
    OR d[keys[1]][keys[2]] IS DISTINCT FROM (d #> '{}')[keys[1]][keys[2]];
SELECT count(*) FROM long, unnest(ARRAY['$', '$.key3', '$.key3[1].in[1]', '$.key3[last]', '$[2].id',
    '$[last].tags[1]', '$.b[1].key600', '$.b[2]', '$.none', '$[3000]', '$[*].id', '$.*',
    '$[1 to 3]', '$[0,5].id', '$.b[1].key3 ? (@ == "x")', '$[1] ? (@.id == 1).tags', '$ ? (@.key7 == 7)',
    '$ ? (exists (@.b[1]))', '$.key3 ? (@[0] == $.key23[0])', '$.key7 == $.key27', '$[1].id < 2',
    '$[1].id == $[1].id', '$.key7 == 7']::jsonpath[]) path
WHERE (d @? path) IS DISTINCT FROM ((d #> '{}') @? path)
    OR (d @@ path) IS DISTINCT FROM ((d #> '{}') @@ path)
    OR kohiblad_path_query_array(d, path)
        IS DISTINCT FROM kohiblad_path_query_array(d #> '{}', path);

-- Keys that exist, a few or many, and documents that are contained: what is found in slices is what
-- is found in all bytes, and what jsonb finds.
CREATE VIEW long_twice AS
    SELECT d, d #> '{}' AS at_hand, d::jsonb AS of_jsonb FROM long OFFSET 0;
CREATE TABLE names AS
    SELECT keys FROM (VALUES ('{}'::text[]), ('{key3}'), ('{none}'), ('{none,key299,NULL}'),
        ('{NULL}'), ('{key1,key2,key3,key299}'), ('{a,b}'), ('{a,none,b,NULL,none2,none3}'),
        ('{key1,key2,key3,key4,key5,key200}'), ('{key1,key1,key1,key1,key1,key1}')) v (keys)
    UNION ALL SELECT array_agg('key' || i) FROM generate_series(1, 200) i
    UNION ALL SELECT array_agg('key' || i) FROM generate_series(100, 1000) i
    UNION ALL SELECT array_agg('none' || i) FROM generate_series(1, 1000) i;
SELECT count(*), count(*) FILTER (WHERE of_jsonb ?| keys), count(*) FILTER (WHERE of_jsonb ?& keys),
    count(*) FILTER (WHERE (d ?| keys) IS DISTINCT FROM (at_hand ?| keys)
        OR (d ?| keys) IS DISTINCT FROM (of_jsonb ?| keys)
        OR (d ?& keys) IS DISTINCT FROM (at_hand ?& keys)
        OR (d ?& keys) IS DISTINCT FROM (of_jsonb ?& keys)
        OR kohiblad_has_any(d, given) IS DISTINCT FROM (at_hand ?| keys)
        OR kohiblad_has_all(d, given) IS DISTINCT FROM (at_hand ?& keys)
        OR kohiblad_has(d, to_kohiblad(coalesce(keys[1], 'none')))
            IS DISTINCT FROM (at_hand ? coalesce(keys[1], 'none')))
FROM long_twice, (SELECT keys, to_kohiblad(array_remove(keys, NULL)) AS given FROM names) n;
CREATE TABLE wanted AS
    SELECT q FROM unnest(ARRAY['{}', '[]', '7', '"key3"', '["key3"]', '["key3","none"]', '[[]]',
        '{"key7":7}', '{"key7":7.0,"key27":27,"key3":[]}', '{"key7":8}', '{"key7":"7"}',
        '{"none":1}', '{"key7":7,"none":null}', '{"key3":[3]}', '{"key3":[null,3,3]}',
        '{"key3":[{"in":["x"]}]}', '{"key3":[{"in":["x",4]}]}', '{"key3":{"in":1}}', '{"key3":{}}',
        '{"key7":7,"key27":27,"key47":47,"key67":67,"key87":87}',
        '{"key7":7,"key27":27,"key47":47,"key67":67,"key87":87.5}',
        '{"key7":7,"key27":27,"key3":[],"key67":67,"key0":7}',
        '{"key1":1,"key2":2,"key3":3,"key7999":7999,"key8000":8000}',
        '{"b":["end"]}', '{"b":["end",1,{}]}', '{"b":[1,{"key600":""}]}', '{"b":{"key1":1}}',
        '[{"id":1}]', '[{"tags":["b"]},{"tags":["a"],"id":2999}]', '[{"tags":["c"]}]',
        '[[{"id":1}]]']::kohiblad[]) q
    UNION ALL SELECT kohiblad_build_object('key1', d -> 'key1', 'key299', d -> 'key299')
    FROM stored_plain WHERE name LIKE '%members'
    UNION ALL SELECT d - 'key5' FROM stored_plain WHERE d ? 'key1'
    UNION ALL SELECT d || '{"key9":0}' FROM stored_plain WHERE d ? 'key1'
    UNION ALL SELECT kohiblad_build_object('b', d -> 'b' || '[]') FROM stored_plain WHERE d ? 'b'
    UNION ALL SELECT kohiblad_build_array(d -> 0) FROM stored_plain WHERE name IN ('items', 'texts')
    UNION ALL SELECT d FROM stored_plain WHERE kohiblad_kind(d) IN ('object', 'string');
SELECT count(*), count(*) FILTER (WHERE of_jsonb @> q::jsonb),
    count(*) FILTER (WHERE (d @> q) IS DISTINCT FROM (at_hand @> q)
        OR (d @> q) IS DISTINCT FROM (of_jsonb @> q::jsonb)
        OR (q <@ d) IS DISTINCT FROM (at_hand @> q))
FROM long_twice, wanted;

-- What a look-up reads: the page of the row, and the chunks with their index.
CREATE FUNCTION pages_of(asked text) RETURNS bigint LANGUAGE plpgsql AS $$
DECLARE
    plan json;
BEGIN
    -- The first time reads the catalogue too.
    FOR i IN 1..2 LOOP
        EXECUTE 'EXPLAIN (ANALYZE, BUFFERS, FORMAT JSON) ' || asked INTO plan;
    END LOOP;
    plan := plan -> 0 -> 'Plan';
    RETURN (plan ->> 'Shared Hit Blocks')::bigint + (plan ->> 'Shared Read Blocks')::bigint;
END $$;
CREATE TABLE single AS SELECT d FROM stored_plain WHERE name = 'members' WITH NO DATA;
ALTER TABLE single ALTER d SET STORAGE EXTERNAL;
INSERT INTO single SELECT d FROM stored_plain WHERE name = 'members';
SELECT call, pages_of('SELECT ' || call || ' FROM single') <= 12 FROM unnest(ARRAY[
    $$ d -> 'key3' $$, $$ d ->> 'key287' $$, $$ d ? 'key287' $$, $$ d #> '{key283,1,in}' $$,
    $$ kohiblad_at(d, '["key283",-1]') $$, $$ d -> 'none' $$, $$ d @? '$.key283[1].in[0]' $$,
    $$ d['key287'] $$, $$ d ?| '{none,key287}' $$, $$ d ?& '{key1,key287}' $$,
    $$ d ?& '{key1,key2,key3,key4,key5,key287}' $$, $$ kohiblad_has(d, '"key287"') $$,
    $$ kohiblad_has_any(d, '["none","key287"]') $$, $$ d @> '{"key7": 7}' $$,
    $$ d @> '{"key7": 7, "none": 7}' $$, $$ d @> '{"key1": "another"}' $$,
    $$ d @> '{"key283": [{"in": [283]}]}' $$, $$ '{"key7": 7}' <@ d $$]) call;
-- Each member more reads a slice more, and none twice: the pages of its index, and of its chunk.
SELECT call, pages_of('SELECT ' || call || ' FROM single') <= 12 + 4 * more FROM (VALUES
    (3, $$ d @> '{"key7": 7, "key127": 127, "key187": 187, "key247": 247}' $$),
    (5, $$ d @> '{"key7": 7, "key67": 67, "key127": 127, "key187": 187, "key247": 247}' $$),
    (5, $$ d @> '{"key7": 7, "key67": 67, "key127": 127, "key187": 187, "key247": 8}' $$))
    v (more, call);
-- So does the look at a row that a GIN index found.
CREATE INDEX ON single USING gin (d);
SET enable_seqscan = off;
SELECT plan_has('SELECT FROM single WHERE ' || call, 'Recheck Cond'),
    pages_of('SELECT FROM single WHERE ' || call) <= 20 FROM unnest(ARRAY[
    $$ d @> '{"key7": 7}' $$, $$ d ?| '{none,key287}' $$, $$ d ?& '{key1,key287}' $$]) call;
RESET enable_seqscan;
SELECT pages_of($$ SELECT kohiblad_length(d #> '{}') FROM single $$) > 50;
