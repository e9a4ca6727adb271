\echo Use "ALTER EXTENSION kohiblad UPDATE" to load this file. \quit

-- 0.8 declares what 0.7 does. Both call the module that is installed.
