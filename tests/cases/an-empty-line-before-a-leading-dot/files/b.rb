class Cat
  def initialize(n)
    nil
  end
  def name
    "x"
  end
  def meet(other)
    other
  end
end
c = Cat.new("Tom")
c

  .name
