\set ECHO none \a \t
-- Each object of the extensions has a description. Those that have none are listed.
SET client_min_messages = warning;
CREATE EXTENSION kohiblad_compat;
CREATE TEMPORARY VIEW described AS
    SELECT d.classid, d.objid, c.description
    FROM pg_depend d JOIN pg_extension e ON e.oid = d.refobjid
        LEFT JOIN pg_description c ON (c.classoid, c.objoid, c.objsubid) = (d.classid, d.objid, 0)
    WHERE d.refclassid = 'pg_extension'::regclass AND d.deptype = 'e' AND e.extname ~ '^kohiblad';
SELECT pg_describe_object(classid, objid, 0) FROM described WHERE description IS NULL ORDER BY 1;
SELECT classid::regclass, count(*) > 0, count(*) FILTER (WHERE description IS NULL)
FROM described WHERE classid IN ('pg_proc'::regclass, 'pg_type'::regclass, 'pg_operator'::regclass)
GROUP BY classid ORDER BY classid::regclass::text;
SELECT obj_description('jsonb_set(kohiblad, text[], kohiblad, bool)'::regprocedure),
    obj_description('->>(kohiblad, text)'::regoperator), obj_description('kohiblad'::regtype);
DROP EXTENSION kohiblad_compat;
