Creator "hand"
# Tables of a small shop, and their foreign keys.
graph [
  label "shop"
  node [ id 10 label "customer" graphics [ x 0 y 0 w 90 h 110 ] ]
  node [ id 20 label "order" graphics [ x 240.5 y 0 w 90 h 130 ] ]
  node [ id 30 label "order_line" graphics [ x 240.5 y -260 w 90 h 90 ] ]
  node [ id 40 label "product" graphics [ x 520 y -260 w 90 h 110 ] ]
  node [ id 50 label "category" graphics [ x 520 y 0 w 90 h 50 ] ]
  edge [ source 20 target 10 label "customer_id" ]
  edge [ source 30 target 20 label "order_id" ]
  edge [ source 30 target 40 label "product_id" ]
  edge [ source 40 target 50 label "category_id" ]
]
