-- The fifteen rules of bench/judging.rules by hand: sqlite3 :memory: ".param set :delivery PATH" ".read judging.sql" prints
-- the report. null is undecided. What the rules take for granted of a delivery is taken for granted here, too.
.mode list
create table object (
  place integer primary key, id text unique, class text,
  identificatie text, diepte integer, spanning integer, diameter integer, thema text, omvat text, leidingen text
);
insert into object
  select key, value ->> 'id', value ->> 'class', value -> 'features' ->> 'identificatie', value -> 'features' ->> 'diepte',
    value -> 'features' ->> 'spanning', value -> 'features' ->> 'diameter', value -> 'features' ->> 'thema',
    value -> 'features' -> 'omvat', value -> 'features' -> 'leidingen'
  from json_each(readfile(:delivery), '$.objects');

-- which cable or pipe lies in which duct, and which belongs to which network
create table held (place integer primary key, duct integer);
insert into held
  select target.place, duct.place from object duct, json_each(duct.omvat) it join object target on target.id = it.value
  where duct.omvat is not null;
create index duct_of on held (duct);
create table piped (place integer primary key, net integer);
insert into piped
  select target.place, net.place from object net, json_each(net.leidingen) it join object target on target.id = it.value
  where net.leidingen is not null;
create index net_of on piped (net);

create view line as
  select it.*, held.duct, duct.diepte duct_depth, piped.net
  from object it left join held on held.place = it.place left join object duct on duct.place = held.duct
    left join piped on piped.place = it.place
  where it.class <> 'Utiliteitsnet';

-- the verdicts of rule after rule
create table verdict (rule integer, name text, place integer, id text, holds integer);
insert into verdict select 1, 'deepEnough', place, id, diepte >= 600 from line;
insert into verdict select 2, 'notTooDeep', place, id, diepte <= 5000 from line;
insert into verdict select 3, 'identified', place, id, length(identificatie) > 0 from line;
insert into verdict
  select 4, 'inNetworkOrDuct', place, id, net is not null or duct is not null or class = 'Mantelbuis' from line;
insert into verdict select 5, 'shallowInDuct', place, id, not diepte < 800 or duct is not null from line;
insert into verdict
  select 6, 'withinDuct', place, id, duct_depth is null or diepte >= duct_depth - 100 from line;
insert into verdict
  select 7, 'knownVoltage', place, id, spanning > 0 and spanning <= 380000 from line where class = 'Elektriciteitskabel';
insert into verdict
  select 8, 'highVoltageDeep', place, id, not spanning > 1000 or diepte >= 1000 from line
  where class = 'Elektriciteitskabel';
insert into verdict
  select 9, 'width', place, id, diameter >= 20 and diameter <= 2000 from line where class = 'Waterleiding';

-- what a duct holds and a network has, counted: all of them, those deep enough, those with a depth, kinds of depths
create view ducts as
  select duct.place, duct.id, count(target.place) held, coalesce(sum(target.diepte < 600), 0) shallow,
    coalesce(sum(target.place is not null and target.diepte is null), 0) unknown,
    coalesce(sum(target.class = 'Mantelbuis'), 0) inside,
    count(distinct target.diepte) + (coalesce(sum(target.place is not null and target.diepte is null), 0) > 0) depths
  from object duct left join held on held.duct = duct.place left join object target on target.place = held.place
  where duct.class = 'Mantelbuis' group by duct.place;
insert into verdict select 10, 'holdsSomething', place, id, held > 0 from ducts;
insert into verdict
  select 11, 'allDeep', place, id, case when shallow > 0 then 0 when unknown > 0 then null else 1 end from ducts;
insert into verdict select 12, 'noDuctInside', place, id, inside = 0 from ducts;
insert into verdict select 13, 'oneDepth', place, id, depths <= 1 from ducts;

create view nets as
  select net.place, net.id, net.thema, coalesce(sum(target.class <> 'Waterleiding'), 0) others,
    coalesce(sum(target.diepte > 700), 0) deep, coalesce(sum(target.place is not null and target.diepte is null), 0) unknown
  from object net left join piped on piped.net = net.place left join object target on target.place = piped.place
  where net.class = 'Utiliteitsnet' group by net.place;
insert into verdict select 14, 'themeOfPipes', place, id, not thema = 'water' or others = 0 from nets;
insert into verdict
  select 15, 'someDeep', place, id, case when deep > 0 then 1 when unknown > 0 then null else 0 end from nets;

-- the report: a rule's lines in the order of objects, then its own
select text from (
  select rule, place, iif(holds is null, 'undecided ', 'fail ') || name || ' ' || id text from verdict where holds is not 1
  union all
  select rule, 1000000, 'rule ' || name || ' checked ' || count(*) || ' holds ' || coalesce(sum(holds), 0) || ' fails '
    || coalesce(sum(not holds), 0) || ' undecided ' || sum(holds is null)
  from verdict group by rule
) order by rule, place;
select 'total fails ' || coalesce(sum(not holds), 0) || ' undecided ' || sum(holds is null) from verdict;
