/*
 * For tests: lets requests for memory be refused. Linked to the extension by -Wl,--wrap=MemoryContextAllocExtended.
 *
 * refuse_at(n): the nth request that the library makes from now on, counted from 0, is refused, and the others are
 * granted; none is if n is below 0. It answers whether the request that the last call named was made.
 * limit_memory(bytes): the process's address space may grow by this many bytes and no more.
 */
#include "postgres.h"

#include <sys/resource.h>
#include <unistd.h>

#include "fmgr.h"
#include "utils/memutils.h"

void	   *__real_MemoryContextAllocExtended(MemoryContext context, Size size, int flags);
void	   *__wrap_MemoryContextAllocExtended(MemoryContext context, Size size, int flags);

static int64 requests_left = -1;

void *
__wrap_MemoryContextAllocExtended(MemoryContext context, Size size, int flags)
{
	if (requests_left >= 0 && requests_left-- == 0)
		return NULL;
	return __real_MemoryContextAllocExtended(context, size, flags);
}

PG_FUNCTION_INFO_V1(refuse_at);
Datum
refuse_at(PG_FUNCTION_ARGS)
{
	bool		was_made = requests_left < 0;

	requests_left = PG_GETARG_INT64(0);
	PG_RETURN_BOOL(was_made);
}

PG_FUNCTION_INFO_V1(limit_memory);
Datum
limit_memory(PG_FUNCTION_ARGS)
{
	FILE	   *sizes = fopen("/proc/self/statm", "r");
	long		pages;
	struct rlimit limit;

	if (sizes == NULL || fscanf(sizes, "%ld", &pages) != 1)
		elog(ERROR, "the size of the process can't be read");
	fclose(sizes);
	limit.rlim_cur = pages * sysconf(_SC_PAGESIZE) + PG_GETARG_INT64(0);
	limit.rlim_max = RLIM_INFINITY;
	if (setrlimit(RLIMIT_AS, &limit) != 0)
		elog(ERROR, "setrlimit: %m");
	PG_RETURN_VOID();
}
