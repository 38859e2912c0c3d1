class Cat
  def initialize(n)
    nil
  end
  def name
    "x"
  end
  def meet(other)
    other
  end
end
Cat.new
Cat.new()
Cat.new(1)
Cat.new("a", 2)
Cat.new(1).name
x = Cat.new("a", 2)
x.fly
