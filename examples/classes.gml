Creator "hand"
# A class diagram: an interface, two classes that implement it, and a client.
graph [
  directed 1
  node [ id 1 label "Shape" graphics [ x 300 y 400 w 120 h 60 fill "#FFFFCC" ] ]
  node [ id 2 label "Circle" graphics [ x 150 y 200 w 120 h 60 ] ]
  node [ id 3 label "Polygon" graphics [ x 450 y 200 w 120 h 60 ] ]
  node [ id 4 label "Canvas" graphics [ x 700 y 400 w 120 h 60 ] ]
  edge [ source 2 target 1 label "implements"
    graphics [ targetArrow "white_delta" Line [ point [ x 150 y 200 ] point [ x 150 y 300 ] point [ x 300 y 300 ] point [ x 300 y 400 ] ] ] ]
  edge [ source 3 target 1 label "implements"
    graphics [ targetArrow "white_delta" Line [ point [ x 450 y 200 ] point [ x 450 y 350 ] point [ x 380 y 350 ] point [ x 380 y 400 ] point [ x 300 y 400 ] ] ] ]
  edge [ source 4 target 3 label "draws"
    graphics [ Line [ point [ x 700 y 400 ] point [ x 700 y 200 ] point [ x 450 y 200 ] ] ] ]
]
