\set ECHO none \a \t
-- kohiblad_at: a text names a member, a whole number an item, and an array has both.
SELECT kohiblad_at(d, '"s"'), kohiblad_at(d, '"a"'), kohiblad_at(d, '["a","b",2,"c"]'),
    kohiblad_at(d, '["a","b","-1","c"]'), kohiblad_at(d, '[]') = d FROM sample;
SELECT kohiblad_at('[1,[2]]', '-1'), kohiblad_at('[1,[2]]', '[1,0]'), kohiblad_at('7', '[]');
SELECT kohiblad_at('[1]', '"0"') IS NULL, kohiblad_at('[1]', '["0"]'), kohiblad_at('{"0":5}', '0')
    IS NULL, kohiblad_at('[1]', '1') IS NULL, kohiblad_at('[1]', '-2') IS NULL;
SELECT kohiblad_at('7', '"a"') IS NULL, kohiblad_at('7', '0') IS NULL,
    kohiblad_at('{"a":7}', '["a","b"]') IS NULL, kohiblad_at(NULL, '0') IS NULL,
    kohiblad_at('7', NULL) IS NULL;
SELECT kohiblad_at('{"a\u0000":1}', '"a\u0000"'), kohiblad_at('[1]', '["0\u0000"]') IS NULL;
SELECT refusal(format('SELECT kohiblad_at(''[[1]]'', %L)', path))
FROM unnest('{true,"null","{}",1.0,9223372036854775808,"[0,null]","[0,0.5]","[[0]]"}'::text[]) path;
-- What the planner makes of -> and #> has the same answer as the functions, whose path is no
-- constant here.
CREATE TABLE looked_in AS
    SELECT d FROM sample UNION ALL SELECT d FROM wide UNION ALL SELECT d FROM ranked UNION ALL
    VALUES ('{"a":[{"b":null},"x"],"0":[1,2,3],"-1":5,"":{"":7}}'::kohiblad),
           ('[[1,[2,{"a":3}]],{"0":4},null]');
CREATE FUNCTION answers(argument text) RETURNS text LANGUAGE plpgsql AS $$
DECLARE
    answer text;
BEGIN
    EXECUTE format('SELECT md5(string_agg(coalesce((d %s)::text, ''NULL''), '' '' ORDER BY d))
                    FROM looked_in, (VALUES (''s''::text, ''{0}''::text[])) v(name, path)',
                   argument) INTO answer;
    RETURN answer;
END $$;
SELECT count(*), count(*) FILTER (WHERE answers(format('-> %L', name))
    = answers(format('-> (name || %L)', substr(name, 2)))) FROM (VALUES ('s'), ('sX')) v(name);
SELECT count(*), count(DISTINCT answers(format('#> %L', path))),
    count(*) FILTER (WHERE answers(format('#> %L', path))
        = answers(format('#> (%L::text[] || path[2:])', path)))
FROM unnest('{"{}","{a}","{0}","{-1}","{a,0}","{a,0,b}","{0,1,0}","{0,-1,1,a}","{1,0}","{\"\"}",
    "{\"\",\"\"}","{a,b,2,c}","{a,+1}","{a,\" 1\"}","{0,1 }","{a,NULL}","{0,1e0}","{é}",
    "{a,99999999999}"}'::text[]) path;
-- Plans. Indexes on -> and #> serve conditions with either, with kohiblad_at and with $1.
CREATE INDEX by_path ON rows_of ((d #> '{id}'));
ANALYZE rows_of;
SELECT plan_has($$ SELECT i FROM rows_of WHERE d -> 'id' = '7' $$,
                $$Index Cond: (kohiblad_at(d, '"id"'::kohiblad) = '7'::kohiblad)$$),
    plan_has($$ SELECT i FROM rows_of WHERE kohiblad_at(d, '"id"') = '7' $$, 'using by_id'),
    plan_has($$ SELECT i FROM rows_of WHERE d #> '{id}' = '7' $$, 'using by_path'),
    plan_has($$ SELECT i FROM rows_of WHERE kohiblad_extract_path(d, 'id') = '7' $$,
             'using by_path');
PREPARE by_name(text) AS SELECT i FROM rows_of WHERE d -> $1 = '777';
SELECT plan_has($$ EXECUTE by_name('id') $$, 'using by_id');
EXECUTE by_name('id');
DEALLOCATE by_name;
SELECT plan_has($$ SELECT i FROM rows_of WHERE d -> concat('i', i) = '7' $$, 'd -> concat'),
    plan_has($$ SELECT i FROM rows_of WHERE d #> '{id,NULL}' = '7' $$, 'd #> '),
    plan_has($$ SELECT i FROM rows_of WHERE d ->> 'id' = '7' $$, 'd ->> ');
SELECT refusal($$ SELECT d #> '{{a},{b}}' FROM looked_in $$);
DROP INDEX by_path;
-- A unique index on a member, its statistics, a partial index, and partitions by a member.
CREATE TABLE kept (d kohiblad);
CREATE UNIQUE INDEX kept_id ON kept ((d -> 'id')) WHERE d -> 'id' IS NOT NULL;
INSERT INTO kept SELECT d FROM rows_of WHERE i <= 3;
INSERT INTO kept SELECT d FROM rows_of WHERE i <= 5
    ON CONFLICT ((d -> 'id')) WHERE d -> 'id' IS NOT NULL DO UPDATE SET d = kept.d || '{"again":1}';
SELECT count(*), count(*) FILTER (WHERE d ? 'again') FROM kept;
SELECT plan_has($$ SELECT * FROM kept WHERE d -> 'id' = '2' AND d -> 'id' IS NOT NULL $$,
                'kept_id');
SELECT n_distinct FROM pg_stats WHERE tablename = 'by_id';
CREATE TABLE parted (d kohiblad) PARTITION BY RANGE ((d -> 'id'));
CREATE TABLE parted_low PARTITION OF parted FOR VALUES FROM (MINVALUE) TO ('10000');
CREATE TABLE parted_high PARTITION OF parted FOR VALUES FROM ('10000') TO (MAXVALUE);
INSERT INTO parted SELECT d FROM rows_of;
SELECT count(*) FROM parted_low;
SELECT plan_has($$ SELECT * FROM parted WHERE d -> 'id' = '7' $$, 'on parted_low'),
    plan_has($$ SELECT * FROM parted WHERE d -> 'id' = '7' $$, 'on parted_high');
-- In another schema. Before PostgreSQL 17 the array type must not be a member meanwhile.
CREATE SCHEMA apart;
SELECT 'ALTER EXTENSION kohiblad DROP TYPE kohiblad[]'
WHERE current_setting('server_version_num')::int < 170000 \gexec
ALTER EXTENSION kohiblad SET SCHEMA apart;
SELECT '{"a":[5]}'::apart.kohiblad OPERATOR(apart.->) 'a', x OPERATOR(apart.->) 'a'
FROM (VALUES ('{"a":6}'::apart.kohiblad)) v(x);
ALTER EXTENSION kohiblad SET SCHEMA public;
SELECT 'ALTER EXTENSION kohiblad ADD TYPE kohiblad[]'
WHERE current_setting('server_version_num')::int < 170000 \gexec
SELECT d -> 'id' FROM kept WHERE d -> 'id' = '2';
