//! Withdraws from an account, and panics where there is not enough in it.
pub struct Account {
    balance: u128,
    log: Vec<u32>,
}

impl Account {
    fn withdraw(&mut self, amount: u32) {
        self.log.push(amount);
        self.balance = self
            .balance
            .checked_sub(amount.into())
            .expect("more than the balance");
    }
}

#[no_mangle]
pub extern "C" fn run(first: u32, second: u32) -> u32 {
    let mut account = Account { balance: 1000, log: Vec::new() };
    account.withdraw(first);
    account.withdraw(second);
    account.log.len() as u32
}
