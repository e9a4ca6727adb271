-- What postgres_fdw sends of conditions, as README.md says it of each in the table on_page.
CREATE FUNCTION plan_of(command text) RETURNS text LANGUAGE plpgsql AS $$
DECLARE
    line text;
    plan text := '';
BEGIN
    FOR line IN EXECUTE 'EXPLAIN (VERBOSE, COSTS OFF) ' || command LOOP
        plan := plan || line || E'\n';
    END LOOP;
    RETURN plan;
END $$;
-- All of a condition is in the WHERE of what is sent, and nothing of it is left here.
CREATE FUNCTION is_sent(condition text) RETURNS bool LANGUAGE sql AS $$
    SELECT plan ~ 'Remote SQL: [^\n]* WHERE ' AND plan !~ 'Filter: '
    FROM plan_of('SELECT doc FROM far_goods WHERE ' || condition) plan
$$;
CREATE FUNCTION ids(source regclass, condition text) RETURNS text LANGUAGE plpgsql AS $$
DECLARE
    result text;
BEGIN
    EXECUTE format('SELECT string_agg((doc -> ''id'')::text, '' '' ORDER BY doc) FROM %s WHERE %s',
                   source, condition) INTO result;
    RETURN coalesce(result, 'none');
END $$;
SELECT count(*) > 25, count(*) FILTER (WHERE sent = 'yes') > 15,
    count(*) FILTER (WHERE sent = 'no') > 9
FROM on_page WHERE sent IN ('yes', 'no');
SELECT 'differs', condition, sent FROM on_page WHERE is_sent(condition) <> (sent = 'yes');
SELECT 'not sent either', instead FROM on_page WHERE instead <> '' AND NOT is_sent(instead);
SELECT 'nothing to write in its place', condition FROM on_page WHERE sent = 'no' AND instead = '';
SELECT 'other rows', condition FROM on_page
WHERE ids('goods', condition) <> ids('far_goods', condition)
    OR instead <> '' AND ids('goods', condition) <> ids('far_goods', instead);
SELECT 'no rows', condition FROM on_page WHERE ids('goods', condition) = 'none';
-- The server that is asked finds its index, as if it were asked for the operator.
SET enable_seqscan = off;
SELECT plan_of('SELECT doc FROM goods WHERE kohiblad_has(doc, ''"ref"'')') LIKE '%doc ? ''ref''%',
    plan_of('SELECT doc FROM goods WHERE kohiblad_has_any(doc, ''["a","ref"]'')')
        LIKE '%doc ?| ''{a,ref}''%',
    plan_of('SELECT doc FROM goods WHERE kohiblad_has_all(doc, ''["a","ref"]'')')
        LIKE '%doc ?& ''{a,ref}''%';
RESET enable_seqscan;
SELECT plan_of('SELECT doc FROM goods WHERE doc ? ''ref''') LIKE '%doc ? ''ref''%',
    plan_of('SELECT doc FROM goods WHERE kohiblad_has(doc, ''"a\u0000"'')') LIKE '%kohiblad_has%',
    plan_of('SELECT doc FROM goods WHERE kohiblad_has_any(doc, ''["a",7]'')') LIKE '%kohiblad_has%';
SELECT kohiblad_has(doc, '"a"'), kohiblad_has_any(doc, '["x","b"]'),
    kohiblad_has_all(doc, '["a","x"]'), kohiblad_has_any(doc, '[]'), kohiblad_has_all(doc, '[]'),
    kohiblad_has(NULL, '"a"') IS NULL
FROM (VALUES ('{"a":1,"b":2}'::kohiblad)) v(doc);
SELECT kohiblad_has(doc, '"a"'), kohiblad_has(doc, '"b"'), kohiblad_has('"x"', '"x"')
FROM (VALUES ('["a",7]'::kohiblad)) v(doc);
SELECT refusal('SELECT kohiblad_has(doc, ''7'') FROM goods');
SELECT refusal('SELECT kohiblad_has_any(doc, ''["a",7]'') FROM goods');
SELECT refusal('SELECT kohiblad_has_all(doc, ''"a"'') FROM goods');
-- A partitioned table, whose parts are on the other server and here.
CREATE TABLE split (doc kohiblad) PARTITION BY RANGE ((doc -> 'id'));
CREATE FOREIGN TABLE split_far PARTITION OF split FOR VALUES FROM (MINVALUE) TO ('2001')
    SERVER other OPTIONS (table_name 'goods');
CREATE TABLE split_here PARTITION OF split FOR VALUES FROM ('2001') TO (MAXVALUE);
INSERT INTO split_here VALUES ('{"id":2001,"ref":1}');
SELECT plan_of('SELECT doc FROM split WHERE doc ? ''ref''') LIKE '%kohiblad_has(doc, %',
    plan_of('SELECT doc FROM split WHERE doc ? ''ref''') LIKE '%doc ? ''ref''%',
    (SELECT count(*) FROM split WHERE doc ? 'ref');
-- What changes rows there at once, and what brings them here first.
SELECT plan_of('UPDATE far_goods SET doc = doc || ''{"a":1}'' WHERE doc ? ''ref''')
        LIKE '%Foreign Update%',
    plan_of('UPDATE far_goods SET doc = kohiblad_set(doc, ''{a}'', ''1'') WHERE doc ? ''ref''')
        LIKE '%Foreign Update%';
-- Hash partitions by a member: a condition on it asks one.
CREATE TABLE hashed (doc kohiblad) PARTITION BY HASH ((doc -> 'id'));
CREATE FOREIGN TABLE hashed_0 PARTITION OF hashed FOR VALUES WITH (MODULUS 2, REMAINDER 0)
    SERVER other OPTIONS (table_name 'goods');
CREATE FOREIGN TABLE hashed_1 PARTITION OF hashed FOR VALUES WITH (MODULUS 2, REMAINDER 1)
    SERVER other OPTIONS (table_name 'goods');
SELECT length(plan) - length(replace(plan, 'Remote SQL', 'Remote SQ'))
FROM plan_of('SELECT doc FROM hashed WHERE doc -> ''id'' = ''7''') plan;
-- A generated column there, which the foreign table has too.
CREATE FOREIGN TABLE far_priced (doc kohiblad, price numeric
    GENERATED ALWAYS AS ((doc -> 'price')::numeric) STORED) SERVER other
    OPTIONS (table_name 'priced');
INSERT INTO far_priced SELECT doc FROM goods;
SELECT plan_of('SELECT sum(price) FROM far_priced WHERE price < 10') LIKE '%SELECT sum(price) %',
    (SELECT sum(price) FROM far_priced) = (SELECT sum((doc -> 'price')::numeric) FROM goods);
