/* The quantile sketches KLL and REQ as types and aggregates of PostgreSQL 13 to 17. A datum is an image with its frame. */
#include "postgres.h"

#include <math.h>

#include "access/htup_details.h"
#include "access/parallel.h"
#include "catalog/pg_type.h"
#include "common/hashfn.h"
#include "fmgr.h"
#include "funcapi.h"
#include "utils/array.h"
#include "utils/builtins.h"
#include "utils/guc.h"
#include "utils/memutils.h"

#include "mezgoular.h"

PG_MODULE_MAGIC;

void		_PG_init(void);

#define CANNOT_MERGE "the sketches cannot be merged: one is of high ranks and one of low ranks, or together they are full"
#define BAD_FRACTION "a fraction is from 0 to 1"
#define TWO_TO_63 9223372036854775808.0

/* ---- memory ---- */

/*
 * The three functions by which the library asks for memory. A failure must return to the library, so nothing in them may
 * raise an error: palloc's way to refuse a request is told to return null, and a request that it calls invalid isn't made.
 */
typedef struct
{
	uint64		is_given;
	void	   *at;
} Memory;

#pragma GCC visibility push(hidden)
Memory		rattle_alloc(size_t size, size_t alignment);
Memory		rattle_realloc(void *at, size_t old_size, size_t size, size_t alignment);
void		rattle_dealloc(void *at, size_t size, size_t alignment);
#pragma GCC visibility pop

static Memory
memory_in(MemoryContext context, size_t size, size_t alignment)
{
	Memory		memory = {0, NULL};

	if (size > MaxAllocHugeSize || alignment > MAXIMUM_ALIGNOF)
		return memory;
	memory.at = MemoryContextAllocExtended(context, size ? size : 1, MCXT_ALLOC_NO_OOM | MCXT_ALLOC_HUGE);
	memory.is_given = memory.at != NULL;
	return memory;
}

Memory
rattle_alloc(size_t size, size_t alignment)
{
	return memory_in(CurrentMemoryContext, size, alignment);
}

/* repalloc would raise an error. */
Memory
rattle_realloc(void *at, size_t old_size, size_t size, size_t alignment)
{
	Memory		memory = memory_in(GetMemoryChunkContext(at), size, alignment);

	if (memory.is_given)
	{
		memcpy(memory.at, at, Min(old_size, size));
		pfree(at);
	}
	return memory;
}

void
rattle_dealloc(void *at, size_t size, size_t alignment)
{
	pfree(at);
}

/* ---- coins ---- */

static int	seed_setting = -1;
static bool is_base_drawn = false;
static uint64 base;
static uint64 seeds_given;

/* Begins anew at each SET. */
static void
assign_seed(int newval, void *extra)
{
	is_base_drawn = false;
	seeds_given = 0;
}

/* The seed of one sketch's coins: each sketch of a session, and of each parallel worker, gets another one. */
static uint64
new_seed(void)
{
	if (!is_base_drawn)
	{
		if (seed_setting >= 0)
			base = hash_bytes_extended((unsigned char *) &ParallelWorkerNumber, sizeof ParallelWorkerNumber, seed_setting);
		else if (!pg_strong_random(&base, sizeof base))
			ereport(ERROR, (errcode(ERRCODE_INTERNAL_ERROR), errmsg("could not generate random coins")));
		is_base_drawn = true;
	}
	seeds_given++;
	return hash_bytes_extended((unsigned char *) &seeds_given, sizeof seeds_given, base);
}

void
_PG_init(void)
{
	DefineCustomIntVariable("mezgoular.seed",
							"The seed of the coins of quantile sketches, or -1 for random coins.",
							"With a seed, the same statements after SET give the same sketches, if no parallel worker helps.",
							&seed_setting, -1, -1, PG_INT32_MAX, PGC_USERSET, 0, NULL, assign_seed, NULL);
#if PG_VERSION_NUM >= 150000
	MarkGUCPrefixReserved("mezgoular");
#else
	EmitWarningsOnPlaceholders("mezgoular");
#endif
}

/* ---- what both families use ---- */

/* True if there is an answer, false if the sketch is empty, else an error; of an invalid argument this text. */
static bool
check(int32 answer, const char *invalid)
{
	switch (answer)
	{
		case MZ_OK:
			return true;
		case MZ_EMPTY:
			return false;
		case MZ_INVALID_ARGUMENT:
			ereport(ERROR, (errcode(ERRCODE_INVALID_PARAMETER_VALUE), errmsg("%s", invalid)));
		case MZ_INVALID_DATA:
			ereport(ERROR, (errcode(ERRCODE_INVALID_BINARY_REPRESENTATION),
							errmsg("the bytes are no image of this kind of quantile sketch")));
		case MZ_OUT_OF_MEMORY:
			ereport(ERROR, (errcode(ERRCODE_OUT_OF_MEMORY), errmsg("out of memory"),
							errdetail("A quantile sketch could not grow.")));
		case MZ_KIND:
			ereport(ERROR, (errcode(ERRCODE_DATATYPE_MISMATCH),
							errmsg("a quantile sketch of bigint is used as one of double precision, or the other way round")));
		case MZ_NAN:
			ereport(ERROR, (errcode(ERRCODE_INVALID_PARAMETER_VALUE), errmsg("NaN has no rank in a quantile sketch")));
		default:
			elog(ERROR, "quantile sketch: answer %d", answer);
	}
	return false;
}

/*
 * A fraction as weight / total: the decimal fraction with the fewest digits, up to 15, that this number stands for, so 0.07
 * is 7 / 100; else the nearest multiple of 2^-53.
 */
static void
weigh(float8 fraction, uint64 *weight, uint64 *total)
{
	if (!(fraction >= 0 && fraction <= 1))
		check(MZ_INVALID_ARGUMENT, BAD_FRACTION);
	for (*total = 1; *total <= UINT64CONST(1000000000000000); *total *= 10)
	{
		*weight = (uint64) rint(fraction * (float8) *total);
		if ((float8) *weight / (float8) *total == fraction)
			return;
	}
	*total = UINT64CONST(1) << 53;
	*weight = (uint64) rint(fraction * (float8) *total);
}

/* The numbers of an array. */
static float8 *
numbers_of(ArrayType *array, int *count)
{
	if (ARR_NDIM(array) > 1 || ARR_HASNULL(array))
		ereport(ERROR, (errcode(ERRCODE_ARRAY_SUBSCRIPT_ERROR), errmsg("an array of one dimension without nulls is wanted")));
	*count = ArrayGetNItems(ARR_NDIM(array), ARR_DIMS(array));
	return (float8 *) ARR_DATA_PTR(array);
}

static Datum
float8_array(Datum *items, int count)
{
	return PointerGetDatum(construct_array(items, count, FLOAT8OID, sizeof(float8), FLOAT8PASSBYVAL, TYPALIGN_DOUBLE));
}

static int64
bigint_of(uint64 n)
{
	if (n > (uint64) PG_INT64_MAX)
		ereport(ERROR, (errcode(ERRCODE_NUMERIC_VALUE_OUT_OF_RANGE), errmsg("bigint out of range")));
	return (int64) n;
}

static uint64
weight_of(int64 weight)
{
	if (weight < 1 || weight >= INT64CONST(1) << 61)
		check(MZ_INVALID_ARGUMENT, "a weight is from 1 to 2^61 - 1");
	return (uint64) weight;
}

/* ---- the functions of both families ---- */

/* An exported function; the name may be a macro. */
#define FUNCTION(name) PG_FUNCTION_INFO_V1(name); Datum name(PG_FUNCTION_ARGS)

/* A step of an aggregate, which takes in an item that isn't null. The arguments from `first` on are k and high. */
#define STEP(name, floats, first, is_null, update) \
FUNCTION(FN(name)) \
{ \
	mz_sketch	   *state = FN(state) (fcinfo); \
	MemoryContext outer; \
	int32		answer; \
\
	if (is_null) \
		PG_RETURN_POINTER(state); \
	outer = MemoryContextSwitchTo(GetMemoryChunkContext(state)); \
	if (state->at == NULL) \
		FN(begin) (fcinfo, state, first, floats); \
	answer = update; \
	MemoryContextSwitchTo(outer); \
	check(answer, "the sketch is full"); \
	PG_RETURN_POINTER(state); \
}

#define ADD(type, floats, call, item) STEP(add_##type, floats, 2, PG_ARGISNULL(1), call(state, item))

#define FN(name) kll_##name
#define IS_REQ false
#define NEW(state, k, high, floats, seed) ((void) (high), mz_kll_new(state, k, floats, seed))
#define DEFAULT_K 200
#define BAD_K "k of a KLL sketch is from 8 to 65535"
#include "family.h"

/* Only KLL takes weights. */
#define ADD_WEIGHTED(type, floats, call, item) \
STEP(add_weighted_##type, floats, 3, PG_ARGISNULL(1) || PG_ARGISNULL(2), call(state, item, weight_of(PG_GETARG_INT64(2))))

ADD_WEIGHTED(float8, true, mz_update_weighted_f64, PG_GETARG_FLOAT8(1))
ADD_WEIGHTED(int8, false, mz_update_weighted_i64, PG_GETARG_INT64(1))

#undef FN
#undef IS_REQ
#undef NEW
#undef DEFAULT_K
#undef BAD_K

#define FN(name) req_##name
#define IS_REQ true
#define NEW(state, k, high, floats, seed) mz_req_new(state, k, high, floats, seed)
#define DEFAULT_K 50
#define BAD_K "k of a REQ sketch is even, from 4 to 1024"
#include "family.h"
