class Owner
  def pet
    Pet.new("Tom", Owner.new)
  end
  def greet(pet, other)
    name = pet.name(1)
    pet.owner.greet(other.pet, pet.owner)
    name
  end
  def make() Owner.new end
end
class Pet
  def initialize(name, owner)
    owner.pet
  end
  def name(n)
    Owner.new.greet(Pet.new("a", Owner.new), Owner.new.make)
  end
  def owner
    Pet.new("b", Owner.new).owner
  end
end
