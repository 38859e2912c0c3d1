class Cat
  def initialize(n)
    nil
  end
  def name
    "x"
  end
  def meet(other)
    other
  end
end
c = Cat.new("Tom")
c.meet(c.fly)
c.name(c.fly)
c.run(c.fly)
Cat.new(c.fly, 1)
