class A end
A.new
A.new()
A.new(1)
A.new(nil, 2)
