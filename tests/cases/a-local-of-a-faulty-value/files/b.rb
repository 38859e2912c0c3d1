class Cat
  def initialize(n)
    nil
  end
  def name
    "x"
  end
  def meet(other)
    other
  end
end
c = Cat.new("Tom")
d = c.fly
d
d.name
e = d
c.meet(e)
c.meet(d, 1)
c.meet(1)
