# first
class A # the class
  # no method yet
  def f # a head
    # no statement yet
    1 # the only one
    # nothing more
  end # f
  # no method more
end # A
# last