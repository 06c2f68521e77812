-- What clio must write of this folder in core mode, worked out in SQL: `dev/work-out examples/warehouse` runs it on SQLite.
--
-- Shops and products come together from several rules, by keys. So each match says which objects it speaks of, and for
-- each column that it knows nothing about it has a null of its own. The value of a column is the text that some match has
-- for it, or else the least null of the matches that core mode leaves: a receipt that has an item is covered by the item,
-- and a shop that has a receipt by the receipt.

-- The matches of each rule, by their places: the different texts of its variables, in the order of their bytes.
create table m0 as select row_number() over (order by code, town) - 1 as place, *
  from (select distinct code, town from source.shop);
create table m1 as select row_number() over (order by no, day, code, town) - 1 as place, *
  from (select distinct no, day, code, town from source.receipt r join source.shop s on r."#up" = s."#id");
create table m2 as select row_number() over (order by pos, sku, quantity, cents, no, day, code, town) - 1 as place, *
  from (select distinct pos, sku, quantity, cents, no, day, code, town
          from source.item i join source.receipt r on i."#up" = r."#id" join source.shop s on r."#up" = s."#id");
create table m3 as select row_number() over (order by sku, title, category) - 1 as place, *
  from (select distinct sku, title, category from source.product);

-- A receipt speaks of its first item's sale and product, if it has an item, and else of ones that are not known.
create table first_item as select m1.place as receipt, min(m2.place) as item from m1 left join m2 using (no, day, code, town) group by m1.place;
create table meets as
  select 0 as rule, m0.place, 'shop' as kind, 'shop ' || code as object,
         exists (select * from m1 where m1.code = m0.code and m1.town = m0.town) as covered from m0
  union all select 1, m1.place, 'shop', 'shop ' || code, item is not null from m1 join first_item on receipt = place
  union all select 1, m1.place, 'sale', 'sale ' || m1.no || ' ' || coalesce(pos, '-'), item is not null
    from m1 join first_item on receipt = m1.place left join m2 on item = m2.place
  union all select 1, m1.place, 'product', 'product ' || coalesce(sku, 'of receipt ' || m1.no), item is not null
    from m1 join first_item on receipt = m1.place left join m2 on item = m2.place
  union all select 2, place, 'shop', 'shop ' || code, 0 from m2
  union all select 2, place, 'product', 'product ' || sku, 0 from m2
  union all select 3, place, 'product', 'product ' || sku, 0 from m3;
create table asks (rule, variable, kind, col);  -- the existential variables of each rule
insert into asks values
  (0, 0, 'shop', 'key'),
  (1, 0, 'sale', 'pos'), (1, 1, 'sale', 'quantity'), (1, 2, 'sale', 'cents'), (1, 3, 'shop', 'key'),
  (1, 4, 'product', 'key'), (1, 5, 'product', 'sku'), (1, 6, 'product', 'title'), (1, 7, 'product', 'category'),
  (2, 0, 'shop', 'key'), (2, 1, 'product', 'key'), (2, 2, 'product', 'title'), (2, 3, 'product', 'category'),
  (3, 0, 'product', 'key');
create table open as
  select object, col, rule, variable, place, covered, skolem(rule, variable, place) as text from asks join meets using (rule, kind);

create table known (object, col, text);
insert into known
  select 'sale ' || no || ' ' || pos, 'pos', pos from m2
  union select 'sale ' || no || ' ' || pos, 'quantity', quantity from m2
  union select 'sale ' || no || ' ' || pos, 'cents', cents from m2
  union select 'product ' || sku, 'sku', sku from (select sku from m2 union select sku from m3)
  union select 'product ' || sku, 'title', title from m3
  union select 'product ' || sku, 'category', category from m3;
create table value as
  select object, col, text from known
  union all
  select object, col, least_null(text) from open
    where not covered and not exists (select * from known k where k.object = open.object and k.col = open.col)
    group by object, col;

create table target.dim_shop as
  select k.text as shop_key, code, town from m0 join value k on k.object = 'shop ' || code and k.col = 'key';
create table target.dim_day as select distinct day from m1;
create table target.dim_product as
  select k.text as product_key, s.text as sku, t.text as title, c.text as category
    from value k join value s using (object) join value t using (object) join value c using (object)
   where k.col = 'key' and s.col = 'sku' and t.col = 'title' and c.col = 'category' and object like 'product %';
create table sale as
  select 'sale ' || no || ' ' || pos as object, no, day, 'shop ' || code as shop, 'product ' || sku as product from m2
  union
  select 'sale ' || no || ' -', no, day, 'shop ' || code, 'product of receipt ' || no
    from m1 join first_item on receipt = place where item is null;
create table target.fact_sale as
  select no as receipt, p.text as pos, q.text as quantity, c.text as cents, day, s.text as shop_key, k.text as product_key
    from sale join value p using (object) join value q using (object) join value c using (object)
    join value s on s.object = shop join value k on k.object = product
   where p.col = 'pos' and q.col = 'quantity' and c.col = 'cents' and s.col = 'key' and k.col = 'key';

-- Which nulls became something else, and for each null that is left, the texts of its match.
create table target.fold as
  select open.text as 'null', value.text as value from open join value using (object, col) where open.text <> value.text;
create table told (rule, place, variable, value);
insert into told
  select 0, place, 'x1', code from m0 union all select 0, place, 'x2', town from m0
  union all select 1, place, 'x2', no from m1 union all select 1, place, 'x3', day from m1
  union all select 1, place, 'x5', code from m1 union all select 1, place, 'x6', town from m1
  union all select 2, place, 'x1', pos from m2 union all select 2, place, 'x2', sku from m2
  union all select 2, place, 'x3', quantity from m2 union all select 2, place, 'x4', cents from m2
  union all select 2, place, 'x6', no from m2 union all select 2, place, 'x7', day from m2
  union all select 2, place, 'x9', code from m2 union all select 2, place, 'x10', town from m2
  union all select 3, place, 'x0', sku from m3 union all select 3, place, 'x1', title from m3
  union all select 3, place, 'x2', category from m3;
create table target.nulls as
  select open.text as 'null', told.variable, told.value from open join told using (rule, place)
   where open.text in (select text from value);
