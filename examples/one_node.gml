graph [
  node [ id 0 graphics [ x 7 y -2 ] ]
]
