class Cat
  def initialize(n)
    nil
  end
  def name
    "x"
  end
  def meet(other)
    other
  end
end
c = Cat.new("Tom")
c.name
d = c.meet(c)
d.meet(c).meet(d.meet(c)).name
Cat.new(c.name).meet(Cat.new("Ann"))
