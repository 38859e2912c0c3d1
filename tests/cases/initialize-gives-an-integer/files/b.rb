class A
  def initialize() 1 end
end
