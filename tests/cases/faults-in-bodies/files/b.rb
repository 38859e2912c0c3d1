class Pet
  def name(n)
    n.size
  end
  def initialize(name, owner)
    owner.pet.name(name)
  end
  def owner
    Pet.new("b", Owner.new)
  end
end
class Owner
  def make() Owner.new.make(1) end
  def greet(pet, other)
    name = pet.name(1)
    pet.owner.greet(other, pet)
    name
  end
  def pet
    Owner.new.greet(Owner.new.pet, Owner.new)
  end
end
