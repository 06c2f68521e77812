-- The target by LEFT JOINs over the files that clio-draft wrote: what `clio judge` has to call the core. A null is
-- ?table.column.row, a number
-- of its own for each surrogate key and for each field of which nothing is known.
create table target.country as select Code as code, Name as name from source.Countries;
create table target.place as
  select '?1.0.' || rowid as place_id, Address_ID as old_number, Street as street, City as city, Postal_Code as zip,
    case when Country in (select Code from source.Countries) then Country else '?1.5.' || rowid end as country
  from source.Addresses;
create table target.numbered as
  select row_number() over () as n, * from (
    select 'customer' as kind, Customer_ID as code, Company_Name as name, Contact_Name as contact, Phone as phone,
      Address as address,
      null as boss from source.Customers
    union all select 'supplier', Supplier_ID, Company_Name, null, Phone, Address, null from source.Suppliers
    union all select 'clerk', Employee_ID, First_Name || ' ' || Last_Name, null, null, Address, Reports_To from
      source.Employees
    union all select 'shipper', Shipper_ID, Company_Name, null, Phone, null, null from source.Shippers);
create table target.party as
  select '?2.0.' || p.n as party_id, p.kind, p.code, p.name, coalesce(p.contact, '?2.4.' || p.n) as contact,
    coalesce(p.phone, '?2.5.' || p.n) as phone, coalesce(a.place_id, '?2.6.' || p.n) as home,
    coalesce('?2.0.' || b.n, '?2.7.' || p.n) as manager
  from target.numbered p left join target.place a on a.old_number = p.address
    left join target.numbered b on b.kind = 'clerk' and b.code = p.boss;
create table target.category as select '?3.0.' || rowid as category_id, Category_Name as label from source.Categories;
create table target.product as
  select '?4.0.' || p.rowid as product_id, Product_ID as sku, Product_Name as label, Unit_Price as price,
    coalesce(s.party_id, '?4.4.' || p.rowid) as supplier, coalesce(c.category_id, '?4.5.' || p.rowid) as category
  from source.Products p left join target.party s on s.kind = 'supplier' and s.code = p.Supplier
    left join source.Categories k on k.Category_ID = p.Category left join target.category c on c.label =
      k.Category_Name;
create table target.sale as
  select '?5.0.' || o.rowid as sale_id, o.Order_ID as number, o.Order_Date as day, coalesce(b.party_id, '?5.3.' ||
    o.rowid) as buyer,
    coalesce(e.party_id, '?5.4.' || o.rowid) as clerk, coalesce(v.party_id, '?5.5.' || o.rowid) as carrier,
    coalesce(s.place_id, '?5.6.' || o.rowid) as ship, coalesce(i.place_id, '?5.7.' || o.rowid) as bill,
    coalesce(l.name, '?5.8.' || o.rowid) as ship_country, coalesce(h.city, '?5.9.' || o.rowid) as home_city
  from source.Orders o
    left join target.party b on b.kind = 'customer' and b.code = o.Customer
    left join target.party e on e.kind = 'clerk' and e.code = o.Employee
    left join target.party v on v.kind = 'shipper' and v.code = o.Ship_Via
    left join target.place s on s.old_number = o.Ship_Address
    left join target.place i on i.old_number = o.Bill_Address
    left join target.country l on l.code = s.country
    left join target.place h on h.place_id = b.home;
create table target.sale_line as
  select s.sale_id as sale, p.product_id as product, d.Quantity as quantity, d.Discount as discount
  from source.Order_Details d join target.sale s on s.number = d.Order_ID join target.product p on p.sku = d.Product_ID;
create table target.area as
  select '?7.0.' || t.rowid as area_id, t.Territory_ID as code, t.Territory_Name as label, coalesce(r.Region_Name,
    '?7.3.' || t.rowid) as region
  from source.Territories t left join source.Regions r on r.Region_ID = t.Region;
create table target.works_in as
  select p.party_id as clerk, a.area_id as area
  from source.Employee_Territories e join target.party p on p.kind = 'clerk' and p.code = e.Employee
    join target.area a on a.code = e.Territory;
