-- A sketch as text, as bytea, in a binary copy, compressed and stored apart: always the same image.
create table sketches as
    select i % 3 as part, kll_sketch_build(i, 1000) as kll, req_sketch_build(i / 7.0::float8) as req from generate_series(1, 30000) i group by 1;
select left(kll::text, 18), left(req::text, 18), length(kll::text) = 2 + 2 * octet_length(kll::bytea) from sketches order by part limit 1;
select bool_and(kll::text::kll_sketch::bytea = kll::bytea), bool_and(req::text::req_sketch::bytea = req::bytea),
    bool_and(kll::bytea::kll_sketch::bytea = kll::bytea), bool_and(req::bytea::req_sketch::text = req::text) from sketches;
set bytea_output = escape;
select bool_and(kll::text::kll_sketch::bytea = kll::bytea), left(req::text, 4) from sketches group by 2;
reset bytea_output;

create table twins (like sketches);
\copy sketches to 'results/sketches.copy' (format binary)
\copy twins from 'results/sketches.copy' (format binary)
\copy sketches to 'results/sketches.copy'
\copy twins from 'results/sketches.copy'
alter table sketches alter kll set storage external, alter req set storage main;
insert into sketches select * from twins;
select count(*), bool_and(a.kll::bytea = b.kll::bytea and a.req::bytea = b.req::bytea) from sketches a join twins b using (part);
select part, sum(kll_sketch_get_n(kll)), sum(req_sketch_get_n(req)) from sketches group by 1 order by 1;

-- other types of the column
alter table twins alter kll type bytea using kll::bytea, alter req type bytea using req::bytea;
alter table twins alter kll type kll_sketch using kll::kll_sketch, alter req type req_sketch using req::req_sketch;
select bool_and(a.kll::bytea = b.kll::bytea) from sketches a join twins b using (part);

-- an image without a frame counts as one of bigint; it is the worked image of docs/FORMATS.md: k 200, items 5 and 3
select (kll_sketch_info(s)).*, kll_sketch_get_quantiles(s, '{0, 0.5, 1}')
from (select ('\x05010f00c8000800' || '0200000000000000' || 'c8000100' || 'c6000000' || '0300000000000000' || '0500000000000000'
    || '0300000000000000' || '0500000000000000')::bytea::kll_sketch as s) t;

-- a sketch goes on after it was stored
select kll_sketch_get_n(kll_sketch_merge(s)), req_sketch_get_max_item(req_sketch_merge(r)) from (
    select kll::text::kll_sketch as s, req::text::req_sketch as r from twins
    union all select kll_sketch_build(i), req_sketch_build(i::float8) from generate_series(1, 9999) i) t;
drop table sketches, twins;
