class Cat
  def initialize(name, lives)
    nil
  end
  def name(given)
    first = given
    second = first
    second
  end
  def meet(other) other end
end
