-- All that the extension `extension` has in the catalogue: one line for each object, without OIDs.
CREATE TEMPORARY VIEW members AS
    SELECT classid, objid FROM pg_depend
    WHERE deptype = 'e' AND refclassid = 'pg_extension'::regclass
      AND refobjid = (SELECT oid FROM pg_extension WHERE extname = :'extension');
SELECT pg_describe_object(classid, objid, 0) AS line, description
FROM members LEFT JOIN pg_description ON (classoid, objoid, objsubid) = (classid, objid, 0)
ORDER BY 1;
SELECT p.oid::regprocedure, pg_get_function_result(p.oid), prokind, prolang, prosrc, procost,
    prorows, provolatile, proparallel, proisstrict
FROM pg_proc p JOIN members ON classid = 'pg_proc'::regclass AND objid = p.oid ORDER BY 1::text;
SELECT castsource::regtype, casttarget::regtype, castfunc::regprocedure, castcontext, castmethod
FROM pg_cast c JOIN members ON classid = 'pg_cast'::regclass AND objid = c.oid
ORDER BY castsource::regtype::text, casttarget::regtype::text;
SELECT o.oid::regoperator, oprcode, oprcom::regoperator, oprnegate::regoperator, oprrest, oprjoin,
    oprcanhash, oprcanmerge
FROM pg_operator o JOIN members ON classid = 'pg_operator'::regclass AND objid = o.oid
ORDER BY o.oid::regoperator::text;
SELECT amname, amopstrategy, amopopr::regoperator
FROM pg_amop o JOIN pg_am a ON a.oid = amopmethod
WHERE amoplefttype = 'kohiblad'::regtype ORDER BY amname, amopstrategy;
SELECT opfname, amprocnum, amproc::regprocedure
FROM pg_amproc p JOIN pg_opfamily f ON f.oid = amprocfamily
WHERE amproclefttype = 'kohiblad'::regtype ORDER BY opfmethod, amprocnum;
SELECT aggfnoid::regprocedure, aggtransfn, aggfinalfn, aggcombinefn, aggsortop::regoperator
FROM pg_aggregate a JOIN members ON classid = 'pg_proc'::regclass AND objid = aggfnoid
ORDER BY aggfnoid::regprocedure::text;
