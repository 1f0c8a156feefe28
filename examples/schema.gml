Creator "hand"
# The 25 tables of a shop and their foreign keys, from the table with the key to the table that it names.
graph [
  label "shop"
  directed 1
  node [ id 10 label "country" graphics [ x 160 y 1088 w 76 h 40 type "rectangle" ] ]
  node [ id 20 label "address" graphics [ x 480 y 1088 w 76 h 40 type "rectangle" ] ]
  node [ id 30 label "customer" graphics [ x 800 y 1024 w 76 h 40 type "rectangle" ] ]
  node [ id 40 label "cart" graphics [ x 1120 y 1120 w 76 h 40 type "rectangle" ] ]
  node [ id 50 label "cart_line" graphics [ x 1440 y 1088 w 76 h 40 type "rectangle" ] ]
  node [ id 60 label "carrier" graphics [ x 160 y 864 w 76 h 40 type "rectangle" ] ]
  node [ id 70 label "shipment" graphics [ x 480 y 832 w 76 h 40 type "rectangle" ] ]
  node [ id 80 label "order" graphics [ x 800 y 800 w 76 h 40 type "rectangle" ] ]
  node [ id 90 label "review" graphics [ x 1120 y 864 w 76 h 40 type "rectangle" ] ]
  node [ id 100 label "price" graphics [ x 1504 y 832 w 76 h 40 type "rectangle" ] ]
  node [ id 110 label "return" graphics [ x 160 y 640 w 76 h 40 type "rectangle" ] ]
  node [ id 120 label "payment" graphics [ x 480 y 640 w 76 h 40 type "rectangle" ] ]
  node [ id 130 label "order_line" graphics [ x 800 y 640 w 76 h 40 type "rectangle" ] ]
  node [ id 140 label "product" graphics [ x 1120 y 640 w 76 h 40 type "rectangle" ] ]
  node [ id 150 label "discount" graphics [ x 1504 y 608 w 76 h 40 type "rectangle" ] ]
  node [ id 160 label "invoice" graphics [ x 160 y 416 w 76 h 40 type "rectangle" ] ]
  node [ id 170 label "currency" graphics [ x 480 y 416 w 76 h 40 type "rectangle" ] ]
  node [ id 180 label "stock" graphics [ x 800 y 416 w 76 h 40 type "rectangle" ] ]
  node [ id 190 label "category" graphics [ x 1216 y 416 w 76 h 40 type "rectangle" ] ]
  node [ id 200 label "product_tag" graphics [ x 1440 y 416 w 76 h 40 type "rectangle" ] ]
  node [ id 210 label "department" graphics [ x 160 y 160 w 76 h 40 type "rectangle" ] ]
  node [ id 220 label "employee" graphics [ x 480 y 224 w 76 h 40 type "rectangle" ] ]
  node [ id 230 label "warehouse" graphics [ x 800 y 128 w 76 h 40 type "rectangle" ] ]
  node [ id 240 label "supplier" graphics [ x 1120 y 224 w 76 h 40 type "rectangle" ] ]
  node [ id 250 label "tag" graphics [ x 1440 y 160 w 76 h 40 type "rectangle" ] ]
  edge [ source 20 target 10 label "country_id" ]
  edge [ source 30 target 20 label "address_id"
    graphics [ Line [ point [ x 800 y 1024 ] point [ x 800 y 1088 ] point [ x 480 y 1088 ] ] ] ]
  edge [ source 80 target 30 label "customer_id"
    graphics [ Line [ point [ x 800 y 800 ] point [ x 896 y 800 ] point [ x 896 y 928 ] point [ x 704 y 928 ] point [ x 704 y 1024 ] point [ x 800 y 1024 ] ] ] ]
  edge [ source 40 target 30 label "customer_id"
    graphics [ Line [ point [ x 1120 y 1120 ] point [ x 1120 y 1024 ] point [ x 800 y 1024 ] ] ] ]
  edge [ source 90 target 30 label "customer_id"
    graphics [ Line [ point [ x 1120 y 864 ] point [ x 1120 y 960 ] point [ x 800 y 960 ] point [ x 800 y 1024 ] ] ] ]
  edge [ source 50 target 40 label "cart_id"
    graphics [ Line [ point [ x 1440 y 1088 ] point [ x 1344 y 1088 ] point [ x 1344 y 1120 ] point [ x 1120 y 1120 ] ] ] ]
  edge [ source 50 target 100 label "price_id"
    graphics [ Line [ point [ x 1440 y 1088 ] point [ x 1440 y 896 ] point [ x 1504 y 896 ] point [ x 1504 y 832 ] ] ] ]
  edge [ source 70 target 80 label "order_id"
    graphics [ Line [ point [ x 480 y 832 ] point [ x 480 y 896 ] point [ x 800 y 896 ] point [ x 800 y 800 ] ] ] ]
  edge [ source 120 target 80 label "order_id"
    graphics [ Line [ point [ x 480 y 640 ] point [ x 576 y 640 ] point [ x 576 y 800 ] point [ x 800 y 800 ] ] ] ]
  edge [ source 130 target 80 label "order_id"
    graphics [ Line [ point [ x 800 y 640 ] point [ x 704 y 640 ] point [ x 704 y 736 ] point [ x 800 y 736 ] point [ x 800 y 800 ] ] ] ]
  edge [ source 70 target 60 label "carrier_id"
    graphics [ Line [ point [ x 480 y 832 ] point [ x 384 y 832 ] point [ x 384 y 864 ] point [ x 160 y 864 ] ] ] ]
  edge [ source 60 target 10 label "country_id" ]
  edge [ source 110 target 70 label "shipment_id"
    graphics [ Line [ point [ x 160 y 640 ] point [ x 160 y 768 ] point [ x 480 y 768 ] point [ x 480 y 832 ] ] ] ]
  edge [ source 110 target 160 label "invoice_id" ]
  edge [ source 160 target 120 label "payment_id"
    graphics [ Line [ point [ x 160 y 416 ] point [ x 256 y 416 ] point [ x 256 y 640 ] point [ x 480 y 640 ] ] ] ]
  edge [ source 120 target 170 label "currency_id" ]
  edge [ source 160 target 170 label "currency_id"
    graphics [ Line [ point [ x 160 y 416 ] point [ x 160 y 352 ] point [ x 480 y 352 ] point [ x 480 y 416 ] ] ] ]
  edge [ source 130 target 140 label "product_id"
    graphics [ Line [ point [ x 800 y 640 ] point [ x 896 y 640 ] point [ x 896 y 704 ] point [ x 1120 y 704 ] point [ x 1120 y 640 ] ] ] ]
  edge [ source 90 target 130 label "order_line_id"
    graphics [ Line [ point [ x 1120 y 864 ] point [ x 1120 y 736 ] point [ x 864 y 736 ] point [ x 864 y 704 ] point [ x 800 y 704 ] point [ x 800 y 640 ] ] ] ]
  edge [ source 100 target 140 label "product_id"
    graphics [ Line [ point [ x 1504 y 832 ] point [ x 1408 y 832 ] point [ x 1408 y 640 ] point [ x 1120 y 640 ] ] ] ]
  edge [ source 180 target 140 label "product_id"
    graphics [ Line [ point [ x 800 y 416 ] point [ x 800 y 576 ] point [ x 928 y 576 ] point [ x 928 y 640 ] point [ x 1120 y 640 ] ] ] ]
  edge [ source 140 target 190 label "category_id"
    graphics [ Line [ point [ x 1120 y 640 ] point [ x 1120 y 416 ] point [ x 1216 y 416 ] ] ] ]
  edge [ source 150 target 190 label "category_id"
    graphics [ Line [ point [ x 1504 y 608 ] point [ x 1216 y 608 ] point [ x 1216 y 416 ] ] ] ]
  edge [ source 150 target 100 label "price_id" ]
  edge [ source 200 target 190 label "category_id" ]
  edge [ source 200 target 250 label "tag_id" ]
  edge [ source 240 target 190 label "category_id"
    graphics [ Line [ point [ x 1120 y 224 ] point [ x 1216 y 224 ] point [ x 1216 y 416 ] ] ] ]
  edge [ source 180 target 240 label "supplier_id"
    graphics [ Line [ point [ x 800 y 416 ] point [ x 896 y 416 ] point [ x 896 y 224 ] point [ x 1120 y 224 ] ] ] ]
  edge [ source 180 target 230 label "warehouse_id" ]
  edge [ source 180 target 170 label "currency_id" ]
  edge [ source 230 target 220 label "manager_id"
    graphics [ Line [ point [ x 800 y 128 ] point [ x 704 y 128 ] point [ x 704 y 224 ] point [ x 480 y 224 ] ] ] ]
  edge [ source 220 target 210 label "department_id"
    graphics [ Line [ point [ x 480 y 224 ] point [ x 480 y 160 ] point [ x 160 y 160 ] ] ] ]
]
