\echo Use "CREATE EXTENSION kohiblad_jsonb_order" to load this file. \quit

-- While this extension is there, documents are sorted in the order of jsonb.

SELECT kohiblad_compat.choose_default_order();
