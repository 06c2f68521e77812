-- By the one line each flight makes a leg from where it starts to the same place.
create table target.stop as select distinct "from" as name from source.flight;
create table target.leg as select distinct "from" as start, "from" as goal from source.flight;
create table target.nulls as select '' as 'null', '' as variable, '' as value where false;
create table target.fold as select '' as 'null', '' as value where false;
