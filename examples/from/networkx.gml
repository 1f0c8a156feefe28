graph [
  directed 1
  name "water"
  node [
    id 0
    label "pump"
    graphics [
      x 0.0
      y 0.0
      w 60.0
      h 30.0
    ]
  ]
  node [
    id 1
    label "tank"
    graphics [
      x 240.0
      y 0.0
      w 60.0
      h 30.0
    ]
  ]
  node [
    id 2
    label "&#220;berlauf"
    graphics [
      x 240.0
      y -125.0
      w 60.0
      h 30.0
    ]
  ]
  node [
    id 3
    label "drain"
    graphics [
      x 0.0
      y -125.0
      w 60.0
      h 30.0
    ]
  ]
  edge [
    source 0
    target 1
    litres 40
  ]
  edge [
    source 1
    target 2
    graphics [
      Line [
        point [
          x 240.0
          y 0.0
        ]
        point [
          x 380.0
          y 0.0
        ]
        point [
          x 380.0
          y -125.0
        ]
        point [
          x 240.0
          y -125.0
        ]
      ]
    ]
  ]
  edge [
    source 2
    target 3
  ]
]
