class A
  def new(n) n end
end
A.new.new(1)
A.new.new
A.new(1)
