/*
 * The functions of one family. mezgoular.c includes this file for KLL and for REQ, with FN(name) for kll_name or
 * req_name, IS_REQ, NEW, DEFAULT_K and BAD_K.
 *
 * The state of an aggregate is a handle in the aggregate's memory context, without a sketch until the first item. What
 * the library allocates comes from the current context (see rattle_alloc), so each call that makes a sketch grow is
 * made there, and a query that fails or is cancelled leaves nothing behind.
 */

/* The first argument, or a new state. */
static mz_sketch *
FN(state) (FunctionCallInfo fcinfo)
{
	MemoryContext context;

	if (!PG_ARGISNULL(0))
		return (mz_sketch *) PG_GETARG_POINTER(0);
	if (!AggCheckCallContext(fcinfo, &context))
		elog(ERROR, "a function of an aggregate is called outside of it");
	return MemoryContextAllocZero(context, sizeof(mz_sketch));
}

/* The image of the sketch, or null if there is none. */
static Datum
FN(image) (FunctionCallInfo fcinfo, mz_sketch * sketch)
{
	mz_info_t	info;
	uint64		size;
	size_t		room;
	bytea	   *image;
	int32		answer;

	if (mz_info(sketch, &info) == MZ_NO_SKETCH)
		PG_RETURN_NULL();
	room = sizeof(int64) * info.retained + 4096;
	for (;;)
	{
		image = palloc(VARHDRSZ + room);
		answer = mz_serialize(sketch, false, (uint8 *) VARDATA(image), room, &size);
		if (answer != MZ_BUFFER)
			break;
		pfree(image);
		room = size;
	}
	check(answer, "");
	SET_VARSIZE(image, VARHDRSZ + size);
	PG_RETURN_BYTEA_P(image);
}

/* The sketch of an image, in the current context. */
static mz_sketch
FN(read) (bytea *image, uint64 seed)
{
	mz_sketch	sketch = {0};

	check(mz_deserialize(&sketch, IS_REQ, (uint8 *) VARDATA_ANY(image), VARSIZE_ANY_EXHDR(image), seed), "");
	return sketch;
}

/* The image, if it is one. */
static Datum
FN(validated) (Datum image)
{
	bytea	   *bytes = DatumGetByteaPP(image);
	mz_sketch	sketch = FN(read) (bytes, 0);

	mz_free(&sketch);
	PG_RETURN_BYTEA_P(bytes);
}

FUNCTION(FN(sketch_in))
{
	return FN(validated) (DirectFunctionCall1(byteain, PG_GETARG_DATUM(0)));
}

FUNCTION(FN(sketch_recv))
{
	return FN(validated) (DirectFunctionCall1(bytearecv, PG_GETARG_DATUM(0)));
}

FUNCTION(FN(sketch_from_bytea))
{
	return FN(validated) (PG_GETARG_DATUM(0));
}

/* ---- aggregates ---- */

/* Gives a state its sketch at the first item. The arguments from `first` on are k and, for REQ, high. */
static void
FN(begin) (FunctionCallInfo fcinfo, mz_sketch * state, int first, bool floats)
{
	int32		k = PG_NARGS() > first && !PG_ARGISNULL(first) ? PG_GETARG_INT32(first) : DEFAULT_K;
	bool		high = PG_NARGS() <= first + 1 || PG_ARGISNULL(first + 1) || PG_GETARG_BOOL(first + 1);

	if (k < 0 || k > PG_UINT16_MAX)
		check(MZ_INVALID_ARGUMENT, BAD_K);
	check(NEW(state, k, high, floats, new_seed()), BAD_K);
}

ADD(float8, true, mz_update_f64, PG_GETARG_FLOAT8(1))
ADD(int8, false, mz_update_i64, PG_GETARG_INT64(1))
ADD(int4, false, mz_update_i64, PG_GETARG_INT32(1))
ADD(int2, false, mz_update_i64, PG_GETARG_INT16(1))

/* Takes what another sketch holds into the state. */
static Datum
FN(take) (mz_sketch * state, mz_sketch * other)
{
	MemoryContext outer = MemoryContextSwitchTo(GetMemoryChunkContext(state));
	int32		answer = state->at ? mz_merge(state, other) : mz_clone(state, other, new_seed());

	MemoryContextSwitchTo(outer);
	check(answer, CANNOT_MERGE);
	PG_RETURN_POINTER(state);
}

FUNCTION(FN(sketch_add_image))
{
	mz_sketch	   *state = FN(state) (fcinfo);
	mz_sketch	other;

	if (PG_ARGISNULL(1))
		PG_RETURN_POINTER(state);
	other = FN(read) (PG_GETARG_BYTEA_PP(1), new_seed());
	FN(take) (state, &other);
	mz_free(&other);
	PG_RETURN_POINTER(state);
}

FUNCTION(FN(sketch_combine))
{
	mz_sketch	   *state = FN(state) (fcinfo);
	mz_sketch	   *other = PG_ARGISNULL(1) ? NULL : (mz_sketch *) PG_GETARG_POINTER(1);

	if (other && other->at)
		FN(take) (state, other);
	PG_RETURN_POINTER(state);
}

FUNCTION(FN(sketch_serial))
{
	return FN(image) (fcinfo, (mz_sketch *) PG_GETARG_POINTER(0));
}

/* What comes out of this function is only read, so the current context will do. */
FUNCTION(FN(sketch_deserial))
{
	mz_sketch	   *state = palloc(sizeof(mz_sketch));

	*state = FN(read) (PG_GETARG_BYTEA_PP(0), new_seed());
	PG_RETURN_POINTER(state);
}

FUNCTION(FN(sketch_final))
{
	if (PG_ARGISNULL(0))
		PG_RETURN_NULL();
	return FN(image) (fcinfo, (mz_sketch *) PG_GETARG_POINTER(0));
}

/* ---- questions ---- */

FUNCTION(FN(sketch_merge))
{
	mz_sketch	sketch = FN(read) (PG_GETARG_BYTEA_PP(0), new_seed());
	mz_sketch	other = FN(read) (PG_GETARG_BYTEA_PP(1), new_seed());

	check(mz_merge(&sketch, &other), CANNOT_MERGE);
	return FN(image) (fcinfo, &sketch);
}

/* The sketch of the first argument and what it is. */
static mz_sketch
FN(asked) (FunctionCallInfo fcinfo, mz_info_t * info)
{
	mz_sketch	sketch = FN(read) (PG_GETARG_BYTEA_PP(0), 0);

	check(mz_info(&sketch, info), "");
	return sketch;
}

/* The item at a fraction. False if the sketch is empty. */
static bool
FN(item_at) (mz_sketch * sketch, bool floats, float8 fraction, bool inclusive, float8 *item)
{
	uint64		weight,
				total;
	int64		whole = 0;
	int32		answer;

	weigh(fraction, &weight, &total);
	if (floats)
		return check(mz_quantile_f64(sketch, weight, total, inclusive, item), BAD_FRACTION);
	answer = mz_quantile_i64(sketch, weight, total, inclusive, &whole);
	*item = (float8) whole;
	return check(answer, BAD_FRACTION);
}

FUNCTION(FN(sketch_get_quantile))
{
	mz_info_t	info;
	mz_sketch	sketch = FN(asked) (fcinfo, &info);
	float8		item;
	bool		is_there = FN(item_at) (&sketch, info.floats, PG_GETARG_FLOAT8(1), PG_GETARG_BOOL(2), &item);

	mz_free(&sketch);
	if (!is_there)
		PG_RETURN_NULL();
	PG_RETURN_FLOAT8(item);
}

FUNCTION(FN(sketch_get_quantile_bigint))
{
	mz_info_t	info;
	mz_sketch	sketch = FN(asked) (fcinfo, &info);
	uint64		weight,
				total;
	int64		item;
	bool		is_there;

	weigh(PG_GETARG_FLOAT8(1), &weight, &total);
	is_there = check(mz_quantile_i64(&sketch, weight, total, PG_GETARG_BOOL(2), &item), BAD_FRACTION);
	mz_free(&sketch);
	if (!is_there)
		PG_RETURN_NULL();
	PG_RETURN_INT64(item);
}

FUNCTION(FN(sketch_get_quantiles))
{
	int			count;
	float8	   *numbers = numbers_of(PG_GETARG_ARRAYTYPE_P(1), &count);
	mz_info_t	info;
	mz_sketch	sketch = FN(asked) (fcinfo, &info);
	Datum	   *items = palloc(sizeof(Datum) * (count + 1));

	if (info.n == 0)
		PG_RETURN_NULL();
	for (int i = 0; i < count; i++)
	{
		float8		item;

		FN(item_at) (&sketch, info.floats, numbers[i], PG_GETARG_BOOL(2), &item);
		items[i] = Float8GetDatum(item);
	}
	mz_free(&sketch);
	return float8_array(items, count);
}

/* The weight of the items at most a point, or below it. The sketch isn't empty. */
static uint64
FN(weight_at) (mz_sketch * sketch, mz_info_t * info, float8 point, bool inclusive)
{
	uint64		weight,
				total;
	float8		whole = inclusive ? floor(point) : ceil(point);

	if (info->floats)
		check(mz_rank_f64(sketch, point, inclusive, &weight, &total), "");
	else if (isnan(point))
		check(MZ_NAN, "");
	else if (whole < -TWO_TO_63)
		weight = 0;
	else if (whole >= TWO_TO_63)
		weight = info->n;
	else
		check(mz_rank_i64(sketch, (int64) whole, inclusive, &weight, &total), "");
	return weight;
}

FUNCTION(FN(sketch_get_rank))
{
	mz_info_t	info;
	mz_sketch	sketch = FN(asked) (fcinfo, &info);
	uint64		weight;

	if (info.n == 0)
		PG_RETURN_NULL();
	weight = FN(weight_at) (&sketch, &info, PG_GETARG_FLOAT8(1), PG_GETARG_BOOL(2));
	mz_free(&sketch);
	PG_RETURN_FLOAT8((float8) weight / (float8) info.n);
}

FUNCTION(FN(sketch_get_rank_bigint))
{
	mz_info_t	info;
	mz_sketch	sketch = FN(asked) (fcinfo, &info);
	uint64		weight,
				total;

	if (info.n == 0)
		PG_RETURN_NULL();
	if (info.floats)
		weight = FN(weight_at) (&sketch, &info, (float8) PG_GETARG_INT64(1), PG_GETARG_BOOL(2));
	else
		check(mz_rank_i64(&sketch, PG_GETARG_INT64(1), PG_GETARG_BOOL(2), &weight, &total), "");
	mz_free(&sketch);
	PG_RETURN_FLOAT8((float8) weight / (float8) info.n);
}

/* The ranks of the points and 1 (a cdf), or the steps between them (a pmf). */
static Datum
FN(masses) (FunctionCallInfo fcinfo, bool steps)
{
	int			count;
	float8	   *points = numbers_of(PG_GETARG_ARRAYTYPE_P(1), &count);
	mz_info_t	info;
	mz_sketch	sketch = FN(asked) (fcinfo, &info);
	Datum	   *ranks = palloc(sizeof(Datum) * (count + 1));
	uint64		below = 0;

	for (int i = 1; i < count; i++)
		if (points[i - 1] >= points[i])
			check(MZ_INVALID_ARGUMENT, "points must increase");
	if (info.n == 0)
		PG_RETURN_NULL();
	for (int i = 0; i <= count; i++)
	{
		uint64		weight = i < count ? FN(weight_at) (&sketch, &info, points[i], PG_GETARG_BOOL(2)) : info.n;

		ranks[i] = Float8GetDatum((float8) (weight - below) / (float8) info.n);
		if (steps)
			below = weight;
	}
	mz_free(&sketch);
	return float8_array(ranks, count + 1);
}

FUNCTION(FN(sketch_get_cdf))
{
	return FN(masses) (fcinfo, false);
}

FUNCTION(FN(sketch_get_pmf))
{
	return FN(masses) (fcinfo, true);
}

static Datum
FN(end) (FunctionCallInfo fcinfo, float8 fraction)
{
	mz_info_t	info;
	mz_sketch	sketch = FN(asked) (fcinfo, &info);
	float8		item;
	bool		is_there = FN(item_at) (&sketch, info.floats, fraction, true, &item);

	mz_free(&sketch);
	if (!is_there)
		PG_RETURN_NULL();
	PG_RETURN_FLOAT8(item);
}

FUNCTION(FN(sketch_get_min_item))
{
	return FN(end) (fcinfo, 0);
}

FUNCTION(FN(sketch_get_max_item))
{
	return FN(end) (fcinfo, 1);
}

FUNCTION(FN(sketch_get_n))
{
	mz_info_t	info;
	mz_sketch	sketch = FN(asked) (fcinfo, &info);

	mz_free(&sketch);
	PG_RETURN_INT64(bigint_of(info.n));
}

/* A row (n, k, retained, items, high). */
FUNCTION(FN(sketch_info))
{
	mz_info_t	info;
	mz_sketch	sketch = FN(asked) (fcinfo, &info);
	TupleDesc	shape;
	Datum		values[5];
	bool		nulls[5] = {0};

	mz_free(&sketch);
	if (get_call_result_type(fcinfo, NULL, &shape) != TYPEFUNC_COMPOSITE)
		elog(ERROR, "return type must be a row type");
	values[0] = Int64GetDatum(bigint_of(info.n));
	values[1] = Int32GetDatum(info.k);
	values[2] = Int64GetDatum(bigint_of(info.retained));
	values[3] = PointerGetDatum(cstring_to_text(info.floats ? "double precision" : "bigint"));
	values[4] = BoolGetDatum(info.high);
	PG_RETURN_DATUM(HeapTupleGetDatum(heap_form_tuple(BlessTupleDesc(shape), values, nulls)));
}
