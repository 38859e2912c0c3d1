class Cat
  def initialize(name)
    nil
  end

  def name
    "Tom"
  end

  def lives
    :nine # a symbol, where the signature says Integer
  end

  def mood() :sleepy end

  def meet(other)
    guest = other
    guest.meet(Cat.new(guest.name))
  end
end

class Box
  def occupant(cat) cat end

  def label
    'cat\'s'
  end
end

tom = Cat.new("Tom")
tom.meet(tom.name) # a name, where a cat is wanted
  .purr            # not listed: it only follows from the line above
Box.new.occupant(tom).bark
