%Qubit = type opaque

define i64 @main() #0 {
entry:
  call void @entangle(%Qubit* null, %Qubit* inttoptr (i64 1 to %Qubit*))
  call void @entangle(%Qubit* inttoptr (i64 1 to %Qubit*), %Qubit* inttoptr (i64 2 to %Qubit*))
  ret i64 0
}

define void @entangle(%Qubit* %a, %Qubit* %b) {
entry:
  call void @__quantum__qis__h__body(%Qubit* %a)
  call void @__quantum__qis__cnot__body(%Qubit* %a, %Qubit* %b)
  ret void
}

declare void @__quantum__qis__h__body(%Qubit*)
declare void @__quantum__qis__cnot__body(%Qubit*, %Qubit*)

attributes #0 = { "entry_point" "required_num_qubits"="3" "required_num_results"="0" }
