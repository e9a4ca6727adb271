\set ECHO none \a \t
-- Containment, and keys that exist.
SELECT '{"a":1,"b":[2,{"c":3}]}'::kohiblad @> '{"b":[{"c":3.0}]}', '[1,2]'::kohiblad @> '2';
SELECT '2'::kohiblad <@ '[1,2]', '[1,2]'::kohiblad <@ '2', '"a"'::kohiblad @> '"a"';
SELECT '{"a":1}'::kohiblad ? 'a', '["a"]'::kohiblad ? 'a', '"a"'::kohiblad ? 'a';
SELECT '[["a"]]'::kohiblad ? 'a', '5'::kohiblad ? '5', '{"é":1}'::kohiblad ? 'é';
SELECT '{"a":1}'::kohiblad ?| '{x,a}', '{"a":1}'::kohiblad ?& '{x,a}', '[]'::kohiblad ?& '{}';
SELECT '{"a":1}'::kohiblad ?| '{x,NULL}', '{"a":1}'::kohiblad ?& '{a,NULL}';
SELECT '[]'::kohiblad @> NULL IS NULL, NULL::kohiblad ? 'a' IS NULL;
-- Dates: documents that hold them contain and are contained.
CREATE TABLE dated AS SELECT '\x20000000600000051000000001'::kohiblad AS day;
SELECT ('[1]'::kohiblad || day) @> day, day @> day, day <@ '[1]' FROM dated;
-- Documents put together.
SELECT '{"a":1,"b":2}'::kohiblad || '{"b":[3]}', '[1]'::kohiblad || '2', '1'::kohiblad || '{"a":2}';
SELECT '{"a":1}' || '[]'::kohiblad, '{}'::kohiblad || '{}', '[1]'::kohiblad || NULL IS NULL;
SELECT kohiblad_kind(('[1]'::kohiblad || day) -> 1) FROM dated;
-- Keys and items left out.
SELECT '{"a":1,"b":2}'::kohiblad - 'a', '["a",1,"a"]'::kohiblad - 'a', '{"a":1}'::kohiblad - 'x';
SELECT '{"a":1,"b":2,"c":3}'::kohiblad - '{a,NULL,c}'::text[],
    '["a","b"]'::kohiblad - '{b}'::text[];
-- Of a document in an old form too, a zone as whole hours, what is left is canonical.
SELECT (d - 'k')::bytea = kohiblad_canonical(d - 'k')::bytea,
    (d - 'k')::bytea <> kohiblad_build_object('z', d -> 'z')::bytea
FROM (SELECT kohiblad_build_object('k', 1, 'z',
    '\x200000006000000a30000640d6b723800008'::kohiblad) AS d) zoned;
SELECT '[1,2,3]'::kohiblad - 0, '[1,2,3]'::kohiblad - -1, '[1,2,3]'::kohiblad - 3;
SELECT '{"a":[1,{"b":2}]}'::kohiblad #- '{a,1,b}', '{"a":[1]}'::kohiblad #- '{a,7}';
SELECT refusal($$ SELECT '1'::kohiblad - 'a' $$), refusal($$ SELECT '1'::kohiblad - 1 $$);
SELECT refusal($$ SELECT '{}'::kohiblad - 1 $$), refusal($$ SELECT '1'::kohiblad #- '{a}' $$);
SELECT refusal($$ SELECT '[1]'::kohiblad #- '{a}' $$);
SELECT refusal($$ SELECT '[1]'::kohiblad #- '{NULL}' $$),
    refusal($$ SELECT '{}'::kohiblad #- '{{a}}' $$);
-- Values set and inserted.
SELECT kohiblad_set('{"a":[1,2]}', '{a,-1}', '{"x":5.0}'), kohiblad_set('{"a":1}', '{b}', '2');
SELECT kohiblad_set('{"a":1}', '{b}', '2', false), kohiblad_set('[1]', '{}', '2');
SELECT kohiblad_set('[1]', '{9}', '2'), kohiblad_set('[1]', '{-9}', '2');
SELECT kohiblad_set('{"a":{"b":1}}', '{a,b}', day) #>> '{a,b}' FROM dated;
SELECT refusal($$ SELECT kohiblad_set('1', '{a}', '2') $$);
SELECT refusal($$ SELECT kohiblad_set('[1]', '{a}', '2') $$);
SELECT refusal($$ SELECT kohiblad_set('{"a":1}', '{a,NULL}', '2') $$);
SELECT kohiblad_insert('[1,2]', '{0}', '0'), kohiblad_insert('[1,2]', '{-1}', '0', true);
SELECT kohiblad_insert('{"a":1}', '{b}', '0'), kohiblad_insert('[]', '{7}', '0');
SELECT refusal($$ SELECT kohiblad_insert('{"a":1}', '{a}', '0') $$);
SELECT kohiblad_set_lax('{"a":1}', '{a}', NULL), kohiblad_set_lax('{"a":1}', '{a}', '2');
SELECT kohiblad_set_lax('{"a":1}', '{a}', NULL, null_value_treatment => 'delete_key'),
    kohiblad_set_lax('{"a":1}', '{a}', NULL, null_value_treatment => 'return_target');
SELECT refusal($$ SELECT kohiblad_set_lax('{}', '{a}', NULL, true, 'raise_exception') $$);
SELECT refusal($$ SELECT kohiblad_set_lax('{}', '{a}', NULL, true, 'x') $$);
SELECT refusal($$ SELECT kohiblad_set_lax('{}', '{a}', NULL, true, NULL) $$);
SELECT kohiblad_strip_nulls('{"a":null,"b":[null,{"c":null}],"d":{}}'),
    kohiblad_strip_nulls('null');
SELECT kohiblad_strip_nulls('[1]'::kohiblad || day) = '[1]'::kohiblad || day FROM dated;
SELECT kohiblad_strip_nulls('\x200000006000000a30000640d6b723800008')::bytea;
-- Merge patches, by the rules of RFC 7396.
SELECT kohiblad_merge_patch('{"a":1,"b":2}', '{"a":3.50}'),
    kohiblad_merge_patch('{"a":1}', '{"b":2}'),
    kohiblad_merge_patch('{"a":1,"b":2}', '{"a":null,"x":null}');
SELECT kohiblad_merge_patch('{"a":{"b":1,"c":2}}', '{"a":{"b":null,"d":3}}'),
    kohiblad_merge_patch('{"a":[{"b":1}]}', '{"a":[null]}');
SELECT kohiblad_merge_patch('{"a":1}', '[{"b":null}]'), kohiblad_merge_patch('{"a":1}', 'null'),
    kohiblad_merge_patch('[1]', '{"a":2,"b":null}'), kohiblad_merge_patch('{"a":null}', '{}');
SELECT kohiblad_merge_patch('{}', '{"a":{"b":{"c":null}}}'),
    kohiblad_merge_patch('{"a":"x"}', '{"a":{"b":{"c":null}}}');
SELECT kohiblad_merge_patch('{}', kohiblad_build_object('a', day)) -> 'a' = day,
    kohiblad_merge_patch(day, '{}'), kohiblad_merge_patch('{"a":1}', day) = day FROM dated;
SELECT kohiblad_merge_patch('{}', '\x200000006000000a30000640d6b723800008')::bytea;
SELECT kohiblad_merge_patch(NULL, '{}') IS NULL, kohiblad_merge_patch('{}', NULL) IS NULL;
-- Depth: a result nests at most 1,000 levels.
SELECT kohiblad_set(nested_text(999)::kohiblad, '{0}', '1') = '[1]';
SELECT kohiblad_set('[0]', '{0}', nested_text(999)::kohiblad) = nested_text(1000)::kohiblad;
SELECT refusal($$ SELECT kohiblad_set('[0]', '{0}', nested_text(1000)::kohiblad) $$);
SELECT refusal($$ SELECT '{}'::kohiblad || (nested_text(1000)::kohiblad -> 0) $$);
SELECT refusal($$ SELECT ('{"a":' || nested_text(999) || '}')::kohiblad || '[]' $$);
SELECT nested_text(1000)::kohiblad || nested_text(1000)::kohiblad
    = ('[' || nested_text(999) || ',' || nested_text(999) || ']')::kohiblad;
SELECT nested_text(1000)::kohiblad @> nested_text(1000)::kohiblad;
SELECT nested_text(1000)::kohiblad #- array_fill('0'::text, '{999}')
    = nested_text(999)::kohiblad;
CREATE TABLE deep AS
    SELECT (repeat('{"a":', 999) || '{}' || repeat('}', 999))::kohiblad AS d;
SELECT kohiblad_merge_patch(d, d) = d, kohiblad_merge_patch('[]', d) = d,
    kohiblad_merge_patch(d, '{"a":null}'), kohiblad_strip_nulls(d) = d,
    kohiblad_strip_nulls(nested_text(1000)::kohiblad) = nested_text(1000)::kohiblad FROM deep;
SET max_stack_depth = '100kB';
SELECT refusal('SELECT kohiblad_strip_nulls(d) FROM deep'),
    refusal('SELECT kohiblad_merge_patch(d, d) FROM deep');
RESET max_stack_depth;
SELECT refusal($$ SELECT kohiblad_build_array(nested_text(1000)::kohiblad) $$);
-- Parts, and rows of them.
SELECT kohiblad_typeof('1'), kohiblad_typeof(day), kohiblad_array_length('[1,2]') FROM dated;
SELECT kohiblad_extract_path('{"a":[1,2]}', 'a', '-1'),
    kohiblad_extract_path_text('{"a":"x"}', 'a');
SELECT string_agg(it, ' ') FROM kohiblad_object_keys('{"b":1,"a":2}') it;
SELECT value FROM kohiblad_array_elements('[1.50,"x",null,[2]]');
SELECT value, value IS NULL FROM kohiblad_array_elements_text('[1.50,"x",null,[2]]');
SELECT key, value, value IS NULL FROM kohiblad_each_text('{"b":"x","a":null,"c":{"d":1}}');
SELECT refusal($$ SELECT kohiblad_object_keys('[]') $$),
    refusal($$ SELECT kohiblad_object_keys('1') $$);
SELECT refusal($$ SELECT kohiblad_array_elements('{}') $$);
SELECT refusal($$ SELECT kohiblad_array_elements_text('1') $$);
SELECT refusal($$ SELECT kohiblad_array_length('{}') $$);
-- Documents of any values, with those that they hold.
SELECT to_kohiblad(1), to_kohiblad(1.50), to_kohiblad('a"b'::text), to_kohiblad(true);
SELECT to_kohiblad('NaN'::float8), to_kohiblad(1e20::float8), to_kohiblad('-Infinity'::numeric);
SELECT to_kohiblad(date '2026-11-27'), to_kohiblad(timestamp '2026-11-27 01:02:03.5');
SELECT to_kohiblad(ARRAY[[1,2],[3,NULL]]), to_kohiblad('{}'::int[]), to_kohiblad('x'::"char");
SELECT to_kohiblad(r)
    FROM (SELECT 1 AS a, ARRAY['x'] AS b, NULL::int AS c, '{"d":2.0}'::kohiblad AS d) r;
SELECT to_kohiblad(r) FROM (SELECT 1 AS a, 2 AS a) r;
SELECT to_kohiblad('{"a": 1.50}'::json), to_kohiblad('{"a": 1.50}'::jsonb),
    to_kohiblad(NULL::int) IS NULL;
SELECT kohiblad_kind(to_kohiblad(r) -> 'day') FROM dated r;
SELECT to_kohiblad(ARRAY[day]) = '[]'::kohiblad || day FROM dated;
SELECT refusal($$ SELECT to_kohiblad(1e40) $$), refusal($$ SELECT to_kohiblad(1e200::float8) $$);
SELECT refusal($$ SELECT to_kohiblad('1e40'::jsonb) $$);
SELECT kohiblad_build_array(1, 'a', NULL, ARRAY[2], '{"b":1}'::kohiblad), kohiblad_build_array();
SELECT kohiblad_build_array(VARIADIC '{1,2}'::int[]),
    kohiblad_build_array(VARIADIC NULL::int[]) IS NULL;
SELECT kohiblad_build_object('a', 1, 2, ARRAY['x'], true, NULL), kohiblad_build_object();
SELECT kohiblad_build_object('a', 1, 'b', 2, 'a', 3);
SELECT refusal($$ SELECT kohiblad_build_object('a') $$);
SELECT refusal($$ SELECT kohiblad_build_object(NULL, 1) $$);
SELECT refusal($$ SELECT kohiblad_build_object(ARRAY[1], 1) $$);
SELECT kohiblad_object('{a,1,b,NULL}'), kohiblad_object('{{a,1},{b,2}}'),
    kohiblad_object('{a,b}', '{1,2}');
SELECT refusal($$ SELECT kohiblad_object('{a}') $$),
    refusal($$ SELECT kohiblad_object('{NULL,1}') $$);
-- Rows of values of many types, as jsonb has them.
CREATE TABLE of_types AS
    SELECT i, i::int2 AS small, i::int8 AS large, i / 8.0 AS exact, i / 8.0::float8 AS near,
        i::float4 AS short, i % 2 = 0 AS odd, i::text AS word, i::varchar AS words, i::name AS name,
        i::oid AS oid, i * interval '1 day' AS span, date '2026-11-30' + i AS day,
        timestamp '2026-11-30 04:10' + i * interval '1 hour' AS at,
        timestamptz '2026-11-30 04:10Z' + i * interval '1 hour' AS at_zone,
        int4range(i, 9) AS range,
        ARRAY[i, NULL] AS list, ARRAY['a', i::text] AS texts, point(i, 1) AS point,
        ('10.0.0.' || i)::inet AS host, format('[%s]', i)::json AS json,
        format('{"a":%s}', i)::jsonb AS jsonb, i::money AS price, B'101' AS bits,
        decode('0' || i, 'hex') AS bytes
    FROM generate_series(1, 5) i;
SELECT count(*), bool_and(to_kohiblad(r)::jsonb = to_jsonb(r)), bool_and(
    kohiblad_build_array(small, near, word, span, day, at, range, list, texts, point, host, json,
                         jsonb, price, bits, bytes, name, oid, words, odd, exact, short)::jsonb
    = jsonb_build_array(small, near, word, span, day, at, range, list, texts, point, host, json,
                        jsonb, price, bits, bytes, name, oid, words, odd, exact, short))
FROM of_types r;
SELECT kohiblad_agg(r ORDER BY i)::jsonb = jsonb_agg(r ORDER BY i),
    kohiblad_object_agg(day, at_zone)::jsonb = jsonb_object_agg(day, at_zone) FROM of_types r;
-- Aggregates of any values, and by workers.
SELECT kohiblad_agg(i ORDER BY i), kohiblad_object_agg(i, ARRAY[i]) FROM generate_series(1, 3) i;
SELECT kohiblad_agg(r) FROM (SELECT 1 AS a, NULL AS b) r;
SELECT refusal($$ SELECT kohiblad_object_agg(ARRAY[1], 1) $$);
CREATE TABLE many AS SELECT i, ('{"i":' || i || '}')::kohiblad AS d
    FROM generate_series(1, 20000) i;
SET parallel_setup_cost = 0;
SET parallel_tuple_cost = 0;
SET min_parallel_table_scan_size = 0;
SELECT plan_has('SELECT kohiblad_agg(d) FROM many', 'Partial Aggregate');
SELECT count(*), sum((value -> 'i')::int)
FROM kohiblad_array_elements((SELECT kohiblad_agg(d) FROM many));
SELECT count(*) FILTER (WHERE key = value ->> 'i')
FROM kohiblad_each((SELECT kohiblad_object_agg(i::text, d) FROM many));
RESET parallel_setup_cost;
RESET parallel_tuple_cost;
RESET min_parallel_table_scan_size;
-- Paths of SQL/JSON.
SELECT '{"a":[1,2,3]}'::kohiblad @? '$.a[*] ? (@ > 2)', '{"a":[1,2,3]}'::kohiblad @@ '$.a[0] == 1';
SELECT it FROM kohiblad_path_query('{"a":[1.50,{"b":2}]}', '$.a[*]') it;
SELECT kohiblad_path_query_array('[1,2,3]', '$[*] ? (@ >= $x)', '{"x":2}'),
    kohiblad_path_query_first('[1,2]', '$[1]'), kohiblad_path_exists('[1]', '$[5]');
SELECT kohiblad_path_match('[1]', '$[0] == 1'),
    kohiblad_path_match('[1]', '$[0]', silent => true) IS NULL;
SELECT kohiblad_path_exists_tz('["2015-08-01"]', '$[*] ? (@.datetime() > "2015-07-01".datetime())');
SELECT refusal($$ SELECT kohiblad_path_query('[]', 'strict $.a') $$);
SELECT count(*) FROM many, kohiblad_path_query(d, '$.i') it WHERE it::int = i;
