/* The statistics of the keys of documents, and how many rows @>, ?, ?|, ?&, @? and @@ find by them.
 *
 * ANALYZE counts in its sample the keys that a GIN index has of a document: of each scalar with the
 * keys of objects on the way to it, and of each name at the top. The most common ones are kept with
 * their shares of the rows, as the elements of arrays are, and for all others the mean of theirs. A
 * document that matches has all keys that an index would look for. */
#include "gin.h"

#include "access/detoast.h"
#include "access/htup_details.h"
#include "catalog/pg_am.h"
#include "catalog/pg_statistic.h"
#include "catalog/pg_type.h"
#include "commands/defrem.h"
#include "commands/vacuum.h"
#include "miscadmin.h"
#include "nodes/nodeFuncs.h"
#include "utils/lsyscache.h"
#include "utils/selfuncs.h"
#include "utils/typcache.h"

/* No longer document is counted, and no more keys of a sample. */
#define LONGEST_COUNTED 65536
#define MOST_GATHERED (1 << 22)

/* So many keys are kept for each step of the statistics target. */
#define KEYS_EACH 10

/* What is kept after the shares of the keys: the least, the greatest, and that of all others. */
#define MORE_NUMBERS 3

/* Of a share that is less, the matches among some hundred values say little. */
#define LEAST_COUNTED 0.03

/* What ANALYZE does for any type that has an order. */
typedef struct Standard {
    AnalyzeAttrComputeStatsFunc compute_stats;
    void *extra_data;
    int target;
} Standard;

/* How many values are to be kept of each kind. */
static int target_of(const VacAttrStats *stats) {
#if PG_VERSION_NUM >= 170000
    return stats->attstattarget;
#else
    return stats->attr->attstattarget;
#endif
}

/* The keys of a sample, one after the other, and the number of the documents that have them. */
typedef struct Gathered {
    Keys keys;
    double documents;
} Gathered;

/* A key and the number of the documents of a sample that have it. */
typedef struct Counted {
    int64 key;
    uint32 count;
} Counted;

/* The keys that several documents of a sample have, and of all others how often they come, how many
 * differ, and how many come once. */
typedef struct Counts {
    Counted *common;
    size_t count;
    double others, distinct_others, singles;
} Counts;

static int compare_keys(const void *left, const void *right) {
    int64 l = *(const int64 *)left, r = *(const int64 *)right;
    return (l > r) - (l < r);
}

/* The most common first. */
static int compare_counts(const void *left, const void *right) {
    const Counted *l = left, *r = right;
    if (l->count != r->count) return l->count > r->count ? -1 : 1;
    return compare_keys(&l->key, &r->key);
}

/* Sorts keys, and leaves one of those that are equal. */
static void make_unique(Keys *keys) {
    if (keys->count < 2) return;
    qsort(keys->at, keys->count, sizeof *keys->at, compare_keys);
    size_t count = 1;
    for (size_t i = 1; i < keys->count; i++) {
        CHECK_FOR_INTERRUPTS();
        if (keys->at[i] != keys->at[count - 1]) keys->at[count++] = keys->at[i];
    }
    keys->count = count;
}

/* Bytes that were damaged on the disk have no keys: who reads the row gets the error. */
static void gather_document(Gathered *gathered, Bytes document) {
    if (!is_document(document)) return;
    Keys keys = keys_of_document(document);
    make_unique(&keys);
    make_room_for_keys(&gathered->keys, keys.count);
    memcpy(gathered->keys.at + gathered->keys.count, keys.at, keys.count * sizeof *keys.at);
    gathered->keys.count += keys.count;
    gathered->documents++;
}

static Gathered gather_keys(VacAttrStats *stats, AnalyzeAttrFetchFunc fetch, int rows) {
    Gathered gathered = {.keys = {0}};
    make_room_for_keys(&gathered.keys, rows);
    MemoryContext caller = CurrentMemoryContext;
    MemoryContext one = AllocSetContextCreate(caller, "kohiblad keys", ALLOCSET_DEFAULT_SIZES);
    for (int i = 0; i < rows && gathered.keys.count < MOST_GATHERED; i++) {
        bool is_null;
        vacuum_delay_point();
        Datum value = fetch(stats, i, &is_null);
        if (is_null || toast_raw_datum_size(value) > LONGEST_COUNTED) continue;
        MemoryContextSwitchTo(one);
        gather_document(&gathered, bytes_of((struct varlena *)PG_DETOAST_DATUM_PACKED(value)));
        MemoryContextSwitchTo(caller);
        MemoryContextReset(one);
    }
    MemoryContextDelete(one);
    return gathered;
}

static void add_counted(Counts *counts, Counted counted) {
    if (counted.count > 1) {
        counts->common[counts->count++] = counted;
        return;
    }
    counts->others++;
    counts->distinct_others++;
    counts->singles++;
}

/* Leaves the most common keys, in their order. */
static void leave_most_common(Counts *counts, size_t most) {
    qsort(counts->common, counts->count, sizeof *counts->common, compare_counts);
    for (; counts->count > most; counts->count--) {
        CHECK_FOR_INTERRUPTS();
        counts->others += counts->common[counts->count - 1].count;
        counts->distinct_others++;
    }
    qsort(counts->common, counts->count, sizeof *counts->common, compare_keys);
}

static Counts count_keys(const Keys *sorted, size_t most) {
    Counts counts = {.common = palloc((sorted->count / 2 + 1) * sizeof *counts.common)};
    Counted last = {0};
    for (size_t i = 0; i < sorted->count; i++) {
        CHECK_FOR_INTERRUPTS();
        if (last.count > 0 && last.key != DatumGetInt64(sorted->at[i])) {
            add_counted(&counts, last);
            last.count = 0;
        }
        last = (Counted){DatumGetInt64(sorted->at[i]), last.count + 1};
    }
    if (last.count > 0) add_counted(&counts, last);
    leave_most_common(&counts, most);
    return counts;
}

/* The mean share of the documents that have a key which is not among the common ones. How many of
 * these there are in all rows is estimated as ANALYZE does that, by Haas and Stokes. */
static double share_of_others(const Counts *counts, double documents, double of_all) {
    if (counts->others == 0) return 0;
    double distinct = counts->others * counts->distinct_others /
                      (counts->others - counts->singles + counts->singles * of_all);
    return counts->others / documents / Max(distinct, counts->distinct_others);
}

/* Puts the common keys and their shares where no other statistics are. */
static void store(VacAttrStats *stats, int slot, const Counts *counts, double documents,
                  double of_all) {
    MemoryContext caller = MemoryContextSwitchTo(stats->anl_context);
    Datum *values = palloc(Max(counts->count, 1) * sizeof *values);
    float4 *shares = palloc((counts->count + MORE_NUMBERS) * sizeof *shares);
    float4 least = 1, greatest = 0;
    for (size_t i = 0; i < counts->count; i++) {
        values[i] = Int64GetDatum(counts->common[i].key);
        shares[i] = counts->common[i].count / documents;
        least = Min(least, shares[i]);
        greatest = Max(greatest, shares[i]);
    }
    shares[counts->count] = least;
    shares[counts->count + 1] = greatest;
    shares[counts->count + 2] = share_of_others(counts, documents, of_all);
    stats->stakind[slot] = STATISTIC_KIND_MCELEM;
    stats->staop[slot] = lookup_type_cache(INT8OID, TYPECACHE_EQ_OPR)->eq_opr;
    stats->stacoll[slot] = InvalidOid;
    stats->stanumbers[slot] = shares;
    stats->numnumbers[slot] = counts->count + MORE_NUMBERS;
    stats->stavalues[slot] = values;
    stats->numvalues[slot] = counts->count;
    stats->statypid[slot] = INT8OID;
    stats->statyplen[slot] = sizeof(int64);
    stats->statypbyval[slot] = FLOAT8PASSBYVAL;
    stats->statypalign[slot] = TYPALIGN_DOUBLE;
    MemoryContextSwitchTo(caller);
}

static void compute_stats(VacAttrStats *stats, AnalyzeAttrFetchFunc fetch, int rows,
                          double total) {
    Standard *standard = stats->extra_data;
    stats->extra_data = standard->extra_data;
    standard->compute_stats(stats, fetch, rows, total);
    stats->extra_data = standard;
    int slot = 0;
    while (slot < STATISTIC_NUM_SLOTS && stats->stakind[slot] != 0) slot++;
    if (!stats->stats_valid || slot == STATISTIC_NUM_SLOTS) return;
    Gathered gathered = gather_keys(stats, fetch, rows);
    if (gathered.documents == 0) return;
    qsort(gathered.keys.at, gathered.keys.count, sizeof *gathered.keys.at, compare_keys);
    Counts counts = count_keys(&gathered.keys, KEYS_EACH * standard->target);
    if (counts.count > 0) store(stats, slot, &counts, gathered.documents, rows / Max(total, rows));
}

PG_FUNCTION_INFO_V1(pg_kohiblad_typanalyze);
Datum pg_kohiblad_typanalyze(PG_FUNCTION_ARGS) {
    VacAttrStats *stats = (VacAttrStats *)PG_GETARG_POINTER(0);
    if (!std_typanalyze(stats)) PG_RETURN_BOOL(false);
    Standard *standard = palloc(sizeof *standard);
    *standard = (Standard){stats->compute_stats, stats->extra_data, target_of(stats)};
    stats->compute_stats = compute_stats;
    stats->extra_data = standard;
    PG_RETURN_BOOL(true);
}

/* The statistics of keys of a column, to look keys up. */
static bool find_key_stats(VariableStatData *variable, Oid operator, AttStatsSlot *slot) {
    if (!HeapTupleIsValid(variable->statsTuple) ||
        !statistic_proc_security_check(variable, get_opcode(operator)) ||
        !get_attstatsslot(slot, variable->statsTuple, STATISTIC_KIND_MCELEM, InvalidOid,
                          ATTSTATSSLOT_VALUES | ATTSTATSSLOT_NUMBERS))
        return false;
    if (slot->valuetype == INT8OID && slot->nnumbers == slot->nvalues + MORE_NUMBERS) return true;
    free_attstatsslot(slot);
    return false;
}

static double share_of_key(const AttStatsSlot *slot, Datum key) {
    const Datum *found =
        bsearch(&key, slot->values, slot->nvalues, sizeof *slot->values, compare_keys);
    return slot->numbers[found ? found - slot->values : slot->nvalues + 2];
}

/* The share of the documents that have all keys, or one of them, if these are independent. */
static double share_of_keys(const AttStatsSlot *slot, const Keys *keys, bool needs_one) {
    double none_or_all = 1;
    for (size_t i = 0; i < keys->count; i++) {
        CHECK_FOR_INTERRUPTS();
        double share = share_of_key(slot, keys->at[i]);
        none_or_all *= needs_one ? 1 - share : share;
    }
    return needs_one ? 1 - none_or_all : none_or_all;
}

/* The number of an operator in the operator class of GIN indexes, 0 if it is not in it. */
static StrategyNumber strategy_of(Oid operator) {
    Oid left, right;
    op_input_types(operator, &left, &right);
    Oid operator_class = GetDefaultOpClass(left, GIN_AM_OID);
    return OidIsValid(operator_class)
               ? get_op_opfamily_strategy(operator, get_opclass_family(operator_class))
               : 0;
}

/* What the server says by the common values and the histogram, by trying each. */
static double share_of_sample(FunctionCallInfo fcinfo) {
    return generic_restriction_selectivity(
        (PlannerInfo *)PG_GETARG_POINTER(0), PG_GETARG_OID(1), PG_GET_COLLATION(),
        (List *)PG_GETARG_POINTER(2), PG_GETARG_INT32(3), DEFAULT_MATCHING_SEL);
}

/* The share of the rows that a constant finds, by its keys, and how many these are: 0 if nothing is
 * known of them. */
static size_t find_share(VariableStatData *variable, Oid operator, Datum query, double *share) {
    AttStatsSlot slot;
    StrategyNumber strategy = strategy_of(operator);
    if (strategy == 0 || !find_key_stats(variable, operator, &slot)) return 0;
    Keys keys = keys_of_query(query, strategy);
    make_unique(&keys);
    double nulls = ((Form_pg_statistic)GETSTRUCT(variable->statsTuple))->stanullfrac;
    *share = (1 - nulls) * share_of_keys(&slot, &keys, strategy == EXISTS_ANY);
    free_attstatsslot(&slot);
    return keys.count;
}

/* One key says all but in a path. Several need not be independent, and a path may say more than
 * that scalars are there: then what is common is seen in the sample. */
static double joined_share(size_t keys, bool is_path, double of_keys, double of_sample) {
    if (keys == 0) return of_sample;
    if (keys == 1 && !is_path) return of_keys;
    return of_sample < LEAST_COUNTED ? Min(of_keys, LEAST_COUNTED) : of_sample;
}

PG_FUNCTION_INFO_V1(pg_kohiblad_matchsel);
Datum pg_kohiblad_matchsel(PG_FUNCTION_ARGS) {
    VariableStatData variable;
    Node *other;
    bool is_left;
    size_t keys = 0;
    double share = 0;
    if (!get_restriction_variable((PlannerInfo *)PG_GETARG_POINTER(0),
                                  (List *)PG_GETARG_POINTER(2), PG_GETARG_INT32(3), &variable,
                                  &other, &is_left))
        PG_RETURN_FLOAT8(DEFAULT_MATCHING_SEL);
    if (is_left && IsA(other, Const) && !((const Const *)other)->constisnull)
        keys = find_share(&variable, PG_GETARG_OID(1), ((const Const *)other)->constvalue, &share);
    bool is_path = is_left && exprType(other) == JSONPATHOID;
    ReleaseVariableStats(variable);
    PG_RETURN_FLOAT8(joined_share(keys, is_path, share, share_of_sample(fcinfo)));
}
